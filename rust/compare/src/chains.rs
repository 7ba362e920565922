//! Ways to break the log's two chains (02's S-9), "yet every record is in exactly one chain and each chain ends". Where it can be so, all
//! counts stay right and one rule alone is broken.

use crate::log::{self, NEXT, NEXT_TRANSACTION, put_link};
use crate::random::Random;
use crate::wall::Wall;
use simulator::{Control, TRANSACTION_OPERATIONS, UNIT};

/// Breaks the chains of a wall of the layout; false where this wall has no place for it.
type Break = fn(&mut Random, &mut Wall) -> bool;

pub const BREAKS: &[(&str, Break)] = &[
    ("chains: a free record left out", |r, w| on_free(r, w, leave_out)),
    ("chains: the first free record left out", |r, w| on_free(r, w, leave_out_first)),
    ("chains: the last free record left out", |r, w| on_free(r, w, leave_out_last)),
    ("chains: the free chain ends early", |r, w| on_free(r, w, end_early)),
    ("chains: free first of the middle, free last right", |r, w| on_free(r, w, begin_late)),
    ("chains: no free chain, though records are free", |r, w| on_free(r, w, no_chain)),
    ("chains: free last is another free record", |r, w| on_free(r, w, other_last)),
    ("chains: free last is 0", |r, w| on_free(r, w, last_0)),
    ("chains: free first is 0", |r, w| on_free(r, w, first_0)),
    ("chains: the free chain goes back to its front", |r, w| on_free(r, w, |_, free, _, log| loop_to(log, free, free[0]))),
    ("chains: the last free record leads to itself", |r, w| on_free(r, w, |_, free, _, log| loop_to(log, free, free[free.len() - 1]))),
    ("chains: the free chain goes back to its middle", |r, w| on_free(r, w, |r, free, _, log| loop_to(log, free, *r.pick(free)))),
    ("chains: the free chain leads into the log's", |r, w| on_both(r, w, free_into_log)),
    ("chains: the free chain is in the log's", |r, w| on_both(r, w, free_first_in_log)),
    ("chains: free last is in the log's chain", |r, w| on_both(r, w, free_last_in_log)),
    ("chains: a transaction leads into the free chain", |r, w| on_both(r, w, operation_into_free)),
    ("chains: the last transaction leads into the free chain", |r, w| on_both(r, w, transaction_into_free)),
    ("chains: a retired transaction's records in no chain", lost),
    ("chains: oldest is 0, though the log has transactions", |r, w| on_log(r, w, |_, _, control, _| control.oldest = 0)),
    ("chains: oldest is the second transaction", |r, w| on_log(r, w, second_is_oldest)),
    ("chains: oldest is a later record", |r, w| on_log(r, w, later_is_oldest)),
    ("chains: oldest, though the log has none", without_log),
    ("chains: the last transaction leads to the oldest", |r, w| on_log(r, w, |_, log_chain, _, log| transaction_loop(log, log_chain, 0))),
    ("chains: the last transaction leads to itself", |r, w| {
        on_log(r, w, |_, log_chain, _, log| transaction_loop(log, log_chain, log_chain.len() - 1))
    }),
    ("chains: a transaction leads back to its first record", |r, w| on_log(r, w, operation_loop)),
    ("chains: a transaction's last record leads to itself", |r, w| on_log(r, w, operation_to_itself)),
    ("chains: two transactions share records", |r, w| on_both(r, w, shared)),
    ("chains: a transaction of more than eight", nine),
    ("chains: index 513 or 65,535 after an operation", |r, w| on_log(r, w, |r, chain, _, log| outside_in(r, log, &chain.concat(), NEXT))),
    ("chains: index 513 or 65,535 after a transaction", |r, w| {
        on_log(r, w, |r, chain, _, log| outside_in(r, log, &firsts(chain), NEXT_TRANSACTION))
    }),
    ("chains: index 513 or 65,535 after the last transaction", |r, w| {
        on_log(r, w, |r, chain, _, log| outside_in(r, log, &firsts(chain)[chain.len() - 1..], NEXT_TRANSACTION))
    }),
    ("chains: index 513 or 65,535 after a free record", |r, w| on_free(r, w, |r, free, _, log| outside_in(r, log, free, NEXT))),
    ("chains: index 513 or 65,535 after the last free record", |r, w| {
        on_free(r, w, |r, free, _, log| outside_in(r, log, &free[free.len() - 1..], NEXT))
    }),
];

/// A change of a free chain of at least three records.
fn on_free(random: &mut Random, wall: &mut Wall, change: fn(&mut Random, &[usize], &mut Control, &mut [u8])) -> bool {
    let free = log::free(wall.played.log.lent(), &wall.control);
    let is_long = free.len() >= 3;
    if is_long {
        change(random, &free, &mut wall.control, wall.played.log.lent_mut());
    }
    is_long
}

/// A change of a log of at least two transactions.
fn on_log(random: &mut Random, wall: &mut Wall, change: fn(&mut Random, &[Vec<usize>], &mut Control, &mut [u8])) -> bool {
    let transactions = log::transactions(wall.played.log.lent(), &wall.control);
    let is_long = transactions.len() >= 2;
    if is_long {
        change(random, &transactions, &mut wall.control, wall.played.log.lent_mut());
    }
    is_long
}

/// Both chains.
struct Both<'a> {
    transactions: Vec<Vec<usize>>,
    free: Vec<usize>,
    control: &'a mut Control,
    log: &'a mut [u8],
}

/// A change of both, of that many at least.
fn on_both(random: &mut Random, wall: &mut Wall, change: fn(&mut Random, Both<'_>) -> bool) -> bool {
    let (control, log) = (&mut wall.control, wall.played.log.lent_mut());
    let both = Both { transactions: log::transactions(log, control), free: log::free(log, control), control, log };
    both.transactions.len() >= 2 && both.free.len() >= 3 && change(random, both)
}

fn index(record: usize) -> u32 {
    record as u32 + 1
}

fn firsts(transactions: &[Vec<usize>]) -> Vec<usize> {
    transactions.iter().map(|records| records[0]).collect()
}

/// A place in the middle of so many.
fn middle(random: &mut Random, many: usize) -> usize {
    random.within(1, many - 2)
}

fn leave_out(random: &mut Random, free: &[usize], _: &mut Control, log: &mut [u8]) {
    let place = middle(random, free.len());
    put_link(log, free[place - 1], NEXT, Some(free[place + 1]));
    put_link(log, free[place], NEXT, None);
}

fn leave_out_first(_: &mut Random, free: &[usize], control: &mut Control, log: &mut [u8]) {
    control.free_first = index(free[1]);
    put_link(log, free[0], NEXT, None);
}

fn leave_out_last(_: &mut Random, free: &[usize], control: &mut Control, log: &mut [u8]) {
    let last = free[free.len() - 2];
    control.free_last = index(last);
    put_link(log, last, NEXT, None);
}

fn end_early(random: &mut Random, free: &[usize], control: &mut Control, log: &mut [u8]) {
    let last = free[middle(random, free.len())];
    control.free_last = index(last);
    put_link(log, last, NEXT, None);
}

fn begin_late(random: &mut Random, free: &[usize], control: &mut Control, _: &mut [u8]) {
    control.free_first = index(free[middle(random, free.len())]);
}

fn no_chain(_: &mut Random, _: &[usize], control: &mut Control, _: &mut [u8]) {
    (control.free_first, control.free_last) = (0, 0);
}

fn other_last(random: &mut Random, free: &[usize], control: &mut Control, _: &mut [u8]) {
    control.free_last = index(*random.pick(&free[..free.len() - 1]));
}

fn last_0(_: &mut Random, _: &[usize], control: &mut Control, _: &mut [u8]) {
    control.free_last = 0;
}

fn first_0(_: &mut Random, _: &[usize], control: &mut Control, _: &mut [u8]) {
    control.free_first = 0;
}

/// The last free record leads to another one.
fn loop_to(log: &mut [u8], free: &[usize], to: usize) {
    put_link(log, free[free.len() - 1], NEXT, Some(to));
}

fn free_into_log(random: &mut Random, both: Both<'_>) -> bool {
    put_link(both.log, both.free[both.free.len() - 1], NEXT, Some(*random.pick(&both.transactions.concat())));
    true
}

fn free_first_in_log(random: &mut Random, both: Both<'_>) -> bool {
    both.control.free_first = index(*random.pick(&both.transactions.concat()));
    true
}

fn free_last_in_log(random: &mut Random, both: Both<'_>) -> bool {
    both.control.free_last = index(*random.pick(&both.transactions.concat()));
    true
}

fn operation_into_free(random: &mut Random, both: Both<'_>) -> bool {
    let transaction = random.pick(&both.transactions);
    put_link(both.log, transaction[transaction.len() - 1], NEXT, Some(*random.pick(&both.free)));
    true
}

fn transaction_into_free(random: &mut Random, both: Both<'_>) -> bool {
    let firsts = firsts(&both.transactions);
    put_link(both.log, firsts[firsts.len() - 1], NEXT_TRANSACTION, Some(*random.pick(&both.free)));
    true
}

/// The oldest transaction is retired, and its records join nothing.
fn lost(_: &mut Random, wall: &mut Wall) -> bool {
    let transactions = log::transactions(wall.played.log.lent(), &wall.control);
    let control = &mut wall.control;
    let [oldest, next, ..] = &transactions[..] else { return false };
    if control.applied[..control.studios as usize].contains(&control.retired) {
        return false;
    }
    (control.retired, control.used, control.oldest) = (control.retired + 1, control.used - oldest.len() as u32, index(next[0]));
    oldest.iter().for_each(|record| wall.played.log.lent_mut()[UNIT * record..UNIT * (record + 1)].fill(0));
    true
}

fn second_is_oldest(_: &mut Random, transactions: &[Vec<usize>], control: &mut Control, _: &mut [u8]) {
    control.oldest = index(transactions[1][0]);
}

/// The last record of a transaction, which may be its first.
fn later_is_oldest(random: &mut Random, transactions: &[Vec<usize>], control: &mut Control, _: &mut [u8]) {
    let records = random.pick(&transactions[1..]);
    control.oldest = index(records[records.len() - 1]);
}

fn without_log(random: &mut Random, wall: &mut Wall) -> bool {
    let is_empty = wall.control.commits == wall.control.retired;
    wall.control.oldest = random.within(1, 512) as u32;
    is_empty
}

fn transaction_loop(log: &mut [u8], transactions: &[Vec<usize>], to: usize) {
    let firsts = firsts(transactions);
    put_link(log, firsts[firsts.len() - 1], NEXT_TRANSACTION, Some(firsts[to]));
}

fn operation_loop(random: &mut Random, transactions: &[Vec<usize>], _: &mut Control, log: &mut [u8]) {
    let records = random.pick(transactions);
    put_link(log, records[records.len() - 1], NEXT, Some(records[0]));
}

fn operation_to_itself(random: &mut Random, transactions: &[Vec<usize>], _: &mut Control, log: &mut [u8]) {
    let records = random.pick(transactions);
    let last = records[records.len() - 1];
    put_link(log, last, NEXT, Some(last));
}

/// A transaction goes on with the later records of another one. Used counts them twice, and as many free records are in no chain.
fn shared(random: &mut Random, both: Both<'_>) -> bool {
    let Both { transactions, free, control, log } = both;
    let fits = |one: &[usize], other: &[usize]| other.len() > 1 && one.len() + other.len() - 1 <= TRANSACTION_OPERATIONS;
    let pairs = transactions.windows(2).filter(|pair| fits(&pair[0], &pair[1])).collect::<Vec<_>>();
    let Some(pair) = (!pairs.is_empty()).then(|| random.pick(&pairs)) else { return false };
    let (one, twice) = (&pair[0], &pair[1][1..]);
    let Some(left) = free.len().checked_sub(twice.len() + 1) else { return false };
    put_link(log, one[one.len() - 1], NEXT, Some(twice[0]));
    free[left + 1..].iter().chain([&free[left]]).for_each(|record| put_link(log, *record, NEXT, None));
    (control.used, control.free_last) = (control.used + twice.len() as u32, index(free[left]));
    true
}

/// A transaction and the one after it are one of more than eight operations, and so is the count of commits.
fn nine(random: &mut Random, wall: &mut Wall) -> bool {
    let Wall { control, played, .. } = wall;
    let log = played.log.lent_mut();
    let transactions = log::transactions(log, control);
    let pairs: Vec<&[Vec<usize>]> = transactions.windows(2).filter(|pair| pair.concat().len() > TRANSACTION_OPERATIONS).collect();
    let Some(pair) = (!pairs.is_empty()).then(|| random.pick(&pairs)) else { return false };
    let (one, other) = (&pair[0], &pair[1]);
    put_link(log, one[one.len() - 1], NEXT, Some(other[0]));
    put_link(log, one[0], NEXT_TRANSACTION, log::named(log::link(log, other[0], NEXT_TRANSACTION)));
    put_link(log, other[0], NEXT_TRANSACTION, None);
    control.commits -= 1;
    control.sent.iter_mut().chain(&mut control.applied).for_each(|count| *count = control.commits.min(*count));
    true
}

/// In one of these records a link to a record that there is not.
fn outside_in(random: &mut Random, log: &mut [u8], records: &[usize], at: usize) {
    let outside = *random.pick(&[512, 65_534]);
    put_link(log, *random.pick(records), at, Some(outside));
}
