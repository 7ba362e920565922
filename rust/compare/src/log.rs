//! The log's two chains (02's S-9), by its bytes alone and apart from the simulator: that of the transactions, which begins at control's
//! oldest, and that of the free records. Records are counted from 0 here, in links and in control from 1. Any bytes and any control have an
//! answer, and every walk ends.

use crate::lent::Lent;
use simulator::{Control, RECORDS, TRANSACTION_OPERATIONS, UNIT};

/// Where a record has the next operation of its transaction, or the next free record.
pub const NEXT: usize = 12;
/// Where a transaction's first record has that of the next transaction.
pub const NEXT_TRANSACTION: usize = 14;

/// The record that a link or a word of control names, 0 naming none.
pub fn named(index: u32) -> Option<usize> {
    (index as usize).checked_sub(1).filter(|record| *record < RECORDS)
}

pub fn link(log: &[u8], record: usize, at: usize) -> u32 {
    u32::from(log[UNIT * record + at]) | u32::from(log[UNIT * record + at + 1]) << 8
}

/// Links a record to another one, or to none.
pub fn put_link(log: &mut [u8], record: usize, at: usize, to: Option<usize>) {
    let index = to.map_or(0, |to| to as u16 + 1);
    log[UNIT * record + at..UNIT * record + at + 2].copy_from_slice(&index.to_le_bytes());
}

/// The records that links lead to, from the one that `first` names; they may come again where the links do not end.
fn chain(log: &[u8], first: u32, at: usize) -> impl Iterator<Item = usize> {
    std::iter::successors(named(first), move |record| named(link(log, *record, at)))
}

/// The records of the transaction that begins there, if it ends after at most eight.
fn records_from(log: &[u8], first: usize) -> Option<Vec<usize>> {
    let records: Vec<usize> = chain(log, first as u32 + 1, NEXT).take(TRANSACTION_OPERATIONS + 1).collect();
    (records.len() <= TRANSACTION_OPERATIONS).then_some(records)
}

/// The records of each transaction of the log, the oldest first, as far as links lead.
pub fn transactions(log: &[u8], control: &Control) -> Vec<Vec<usize>> {
    let count = control.commits.saturating_sub(control.retired) as usize;
    let firsts = chain(log, control.oldest, NEXT_TRANSACTION).take(count.min(RECORDS));
    firsts.map_while(|first| records_from(log, first)).collect()
}

/// Those of transaction `number`, if that is in the log.
pub fn records(log: &[u8], control: &Control, number: u32) -> Option<Vec<usize>> {
    let before = number.checked_sub(control.retired)?.checked_sub(1)? as usize;
    let first = chain(log, control.oldest, NEXT_TRANSACTION).take(RECORDS).nth(before)?;
    records_from(log, first)
}

/// The operations of transaction `number` with their links, and its records; the log is of the layout.
pub fn transaction(control: &Control, lent: &Lent, number: u32) -> (Vec<usize>, Vec<Vec<u8>>) {
    let log = lent.log.lent();
    let records = records(log, control, number).expect("the log is of the layout");
    let operations = records.iter().map(|r| log[UNIT * r..UNIT * (r + 1)].to_vec()).collect();
    (records, operations)
}

/// The free records, from the chain's front.
pub fn free(log: &[u8], control: &Control) -> Vec<usize> {
    chain(log, control.free_first, NEXT).take(RECORDS).collect()
}

/// Makes these records, whose operations stand already, the log's chain, and those the free one, with the words of control that are theirs.
pub fn put_chains(log: &mut [u8], control: &mut Control, transactions: &[Vec<usize>], free: &[usize]) {
    let firsts: Vec<usize> = transactions.iter().map(|records| records[0]).collect();
    for records in transactions {
        records.iter().for_each(|record| put_link(log, *record, NEXT_TRANSACTION, None));
        put_links(log, NEXT, records);
    }
    put_links(log, NEXT_TRANSACTION, &firsts);
    free.iter().for_each(|record| log[UNIT * record..UNIT * (record + 1)].fill(0));
    put_links(log, NEXT, free);
    let index = |record: Option<&usize>| record.map_or(0, |record| *record as u32 + 1);
    control.used = transactions.iter().map(|records| records.len() as u32).sum();
    control.oldest = index(firsts.first());
    (control.free_first, control.free_last) = (index(free.first()), index(free.last()));
}

/// Links each record to the one after it, and the last to none.
fn put_links(log: &mut [u8], at: usize, records: &[usize]) {
    for (place, record) in records.iter().enumerate() {
        put_link(log, *record, at, records.get(place + 1).copied());
    }
}

#[cfg(test)]
mod tests {
    use super::*;
    use simulator::LOG;

    /// Transactions 4 and 5, of two operations and of one, and a free chain that goes down.
    fn log() -> (Vec<u8>, Control) {
        let (mut log, mut control) = (vec![0; LOG], Control { commits: 5, retired: 3, ..Control::default() });
        let free: Vec<usize> = (0..RECORDS).rev().filter(|record| ![7, 2, 511].contains(record)).collect();
        put_chains(&mut log, &mut control, &[vec![7, 2], vec![511]], &free);
        (log, control)
    }

    #[test]
    fn chains_are_walked_as_they_were_put() {
        let (log, control) = log();
        assert_eq!((control.used, control.oldest, control.free_first, control.free_last), (3, 8, 511, 1));
        assert_eq!(transactions(&log, &control), [vec![7, 2], vec![511]]);
        assert_eq!([3, 4, 5, 6].map(|number| records(&log, &control, number)), [None, Some(vec![7, 2]), Some(vec![511]), None]);
        let free = free(&log, &control);
        assert_eq!((free.len(), &free[..3], free[508]), (509, &[510, 509, 508][..], 0));
        assert_eq!((link(&log, 7, NEXT), link(&log, 7, NEXT_TRANSACTION), link(&log, 2, NEXT)), (3, 512, 0));
    }

    #[test]
    fn links_of_any_sort_end() {
        let (mut log, control) = log();
        put_link(&mut log, 511, NEXT_TRANSACTION, Some(7));
        put_link(&mut log, 0, NEXT, Some(0));
        let many = Control { commits: u32::MAX, ..control };
        assert_eq!((transactions(&log, &many).len(), free(&log, &many).len()), (512, 512));
        assert!(records(&log, &many, 3 + 513).is_none() && records(&log, &many, u32::MAX).is_none());
        put_link(&mut log, 2, NEXT, Some(7));
        assert_eq!((transactions(&log, &many), records(&log, &many, 4)), (vec![], None), "no transaction has nine records");
        assert_eq!(transactions(&log, &Control { oldest: 513, ..many }), Vec::<Vec<usize>>::new());
    }
}
