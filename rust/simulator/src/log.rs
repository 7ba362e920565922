//! The log: 512 records in two chains, that of the transactions and that of the free
//! records. Every record is in exactly one of them.

use crate::bytes::{all_zero, put_u16, u16_at};
use crate::control::Control;
use crate::operation::{Operation, Transaction};
use crate::sizes::{RECORDS, TRANSACTION_OPERATIONS, UNIT};
use crate::system::as_u32;

/// The next operation of a transaction, or the next free record.
const NEXT: usize = 12;
/// In a transaction's first record: the first record of the next transaction.
const NEXT_TRANSACTION: usize = 14;

/// A transaction of the log, and the record of each of its operations.
#[derive(Clone, PartialEq, Eq, Debug)]
pub struct Logged {
    pub operations: Transaction,
    records: Vec<u16>,
}

#[derive(Clone, PartialEq, Eq, Debug)]
pub struct Log {
    /// The log's chain, the oldest transaction first.
    pub transactions: Vec<Logged>,
    /// The free chain, from its front.
    free: Vec<u16>,
}

impl Log {
    /// S-9: "after setup the free chain is 1 to 512 in order".
    pub fn fresh() -> Log {
        Log { transactions: Vec::new(), free: (1..).take(RECORDS).collect() }
    }

    /// The two chains, or `None` when the log or its words of control are out of their rules.
    pub fn decode(log: &[u8], control: &Control) -> Option<Log> {
        let mut walk = Walk { log, walked: [false; RECORDS] };
        let transactions = walk.transactions(control.oldest)?;
        let free = walk.free(control.free_first)?;
        let log = Log { transactions, free };
        let counted = control.commits.checked_sub(control.retired) == Some(as_u32(log.transactions.len()));
        let whole = as_u32(log.used()) == control.used && log.used() + log.free.len() == RECORDS;
        let ended = index(log.free.last()) == control.free_last;
        (counted && whole && ended).then_some(log)
    }

    /// Writes the two chains over the whole log, and the words of control that are theirs.
    pub fn encode(&self, log: &mut [u8], control: &mut Control) {
        log.fill(0);
        for Logged { operations, records } in &self.transactions {
            for (operation, r) in operations.iter().zip(records) {
                operation.encode(record_mut(log, *r));
            }
            put_links(log, NEXT, records);
        }
        let firsts: Vec<u16> = self.transactions.iter().map(|transaction| transaction.records[0]).collect();
        put_links(log, NEXT_TRANSACTION, &firsts);
        put_links(log, NEXT, &self.free);
        control.used = as_u32(self.used());
        control.oldest = index(firsts.first());
        control.free_first = index(self.free.first());
        control.free_last = index(self.free.last());
    }

    /// Whether there are free records for so many operations.
    pub fn has_room(&self, operations: usize) -> bool {
        operations <= self.free.len()
    }

    /// Appends a transaction. Its operations take the records at the front of the free
    /// chain, in its order; there is room for them.
    pub fn append(&mut self, operations: Transaction) {
        let records = self.free.drain(..operations.len()).collect();
        self.transactions.push(Logged { operations, records });
    }

    /// Takes out the oldest transaction, of which there is one. Its records join the end
    /// of the free chain in the order of its operations.
    pub fn take_oldest(&mut self) -> Transaction {
        let Logged { operations, records } = self.transactions.remove(0);
        self.free.extend(records);
        operations
    }

    /// How many records are in the log's chain.
    fn used(&self) -> usize {
        self.transactions.iter().map(|transaction| transaction.records.len()).sum()
    }
}

/// A walk along the chains of any bytes. It steps on no record twice, so it ends.
struct Walk<'a> {
    log: &'a [u8],
    /// Record r is at r − 1.
    walked: [bool; RECORDS],
}

impl<'a> Walk<'a> {
    /// Record r, or `None` where there is none or the walk was there already.
    fn step(&mut self, r: u16) -> Option<&'a [u8]> {
        let place = usize::from(r).checked_sub(1)?;
        let walked = self.walked.get_mut(place).filter(|walked| !**walked)?;
        *walked = true;
        Some(&self.log[UNIT * place..UNIT * (place + 1)])
    }

    /// The transactions of the chain that begins at record `oldest`, 0 for none.
    fn transactions(&mut self, oldest: u32) -> Option<Vec<Logged>> {
        let (mut transactions, mut first) = (Vec::new(), u16::try_from(oldest).ok()?);
        while first != 0 {
            let (transaction, next) = self.transaction(first)?;
            transactions.push(transaction);
            first = next;
        }
        Some(transactions)
    }

    /// The transaction that begins at record `first`, and where the next one begins.
    fn transaction(&mut self, first: u16) -> Option<(Logged, u16)> {
        let mut transaction = Logged { operations: Transaction::new(), records: Vec::new() };
        let (mut r, mut next_transaction) = (first, 0);
        while r != 0 {
            let unit = self.step(r)?;
            match u16_at(unit, NEXT_TRANSACTION) {
                next if r == first => next_transaction = next,
                0 => {}
                _ => return None,
            }
            transaction.operations.push(Operation::decode(unit)?);
            transaction.records.push(r);
            r = u16_at(unit, NEXT);
        }
        let counted = (1..=TRANSACTION_OPERATIONS).contains(&transaction.operations.len());
        counted.then_some((transaction, next_transaction))
    }

    /// The free chain that begins at record `first`, 0 for none.
    fn free(&mut self, first: u32) -> Option<Vec<u16>> {
        let (mut free, mut r) = (Vec::new(), u16::try_from(first).ok()?);
        while r != 0 {
            let unit = self.step(r)?;
            if !all_zero(&unit[..NEXT]) || !all_zero(&unit[NEXT + 2..]) {
                return None;
            }
            free.push(r);
            r = u16_at(unit, NEXT);
        }
        Some(free)
    }
}

/// Record r, counted from 1.
fn record_mut(log: &mut [u8], r: u16) -> &mut [u8] {
    let r = usize::from(r);
    &mut log[UNIT * (r - 1)..UNIT * r]
}

/// Writes into each record of a chain the index of the next one. The last one keeps zero.
fn put_links(log: &mut [u8], at: usize, chain: &[u16]) {
    for pair in chain.windows(2) {
        put_u16(record_mut(log, pair[0]), at, pair[1]);
    }
}

/// A record's index as a word of control, 0 for none.
fn index(record: Option<&u16>) -> u32 {
    record.map_or(0, |r| u32::from(*r))
}
