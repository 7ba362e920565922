//! The message of a transaction (02's S-6), on bytes and apart from the simulator.

use crate::lent::Lent;
use crate::log;
use crate::rows;
use simulator::{Control, UNIT};

/// What stands before the operations: number, count, a zero byte.
pub const HEAD: usize = 4;
/// The length of a message of 8 operations.
pub const MOST: usize = HEAD + 8 * UNIT;

/// The message of the transaction with this number and these operations.
pub fn of(number: u32, operations: &[u8]) -> Vec<u8> {
    let [low, high, ..] = number.to_le_bytes();
    let count = (operations.len() / UNIT) as u8;
    [&[low, high, count, 0], operations].concat()
}

/// The operations of transaction `number` as they were handed to commit: the log's records without their links; none where the log's
/// links do not lead to it. Memory may have any length.
pub fn operations_in_log(control: &Control, lent: &Lent, number: u32) -> Option<Vec<u8>> {
    let log = rows::log(lent);
    log::records(&log, control, number).map(|records| operations_of(&log, &records))
}

/// Those of every transaction in the log, the oldest first.
pub fn all_in_log(control: &Control, lent: &Lent) -> Vec<Vec<u8>> {
    let log = rows::log(lent);
    log::transactions(&log, control).iter().map(|records| operations_of(&log, records)).collect()
}

/// The operations of these records without their links.
fn operations_of(log: &[u8], records: &[usize]) -> Vec<u8> {
    let mut operations: Vec<u8> = records.iter().flat_map(|r| &log[UNIT * r..UNIT * (r + 1)]).copied().collect();
    operations.chunks_exact_mut(UNIT).for_each(|unit| unit[12..16].fill(0));
    operations
}

/// How much output the message of transaction `number` asks for: that of one operation where the log has no such transaction.
pub fn output_asked(control: &Control, lent: &Lent, number: u32) -> usize {
    HEAD + operations_in_log(control, lent, number).map_or(UNIT, |operations| operations.len())
}

/// The number that a message has, zero for a byte that it does not have.
pub fn number(message: &[u8]) -> u32 {
    u32::from(byte(message, 0)) | u32::from(byte(message, 1)) << 8
}

/// The count of operations that a message has.
pub fn count(message: &[u8]) -> usize {
    usize::from(byte(message, 2))
}

/// The operations of a message: its whole units after the head.
pub fn operations(message: &[u8]) -> impl Iterator<Item = &[u8]> {
    message.get(HEAD..).unwrap_or_default().chunks_exact(UNIT)
}

fn byte(message: &[u8], at: usize) -> u8 {
    message.get(at).copied().unwrap_or(0)
}

#[cfg(test)]
mod tests {
    use super::*;

    /// Transactions 3, 4 and 5 of two, one and one operations, in records 2, 1, 4 and 3.
    fn wall() -> (Control, Lent) {
        let mut lent = Lent::zeros();
        let links = [(0, 0), (1, 4), (0, 0), (0, 3)];
        for ((next, transaction), unit) in links.into_iter().zip(lent.log.lent_mut().chunks_exact_mut(UNIT)) {
            (unit[0], unit[2], unit[12], unit[14]) = (4, 1, next, transaction);
        }
        (Control { commits: 5, retired: 2, oldest: 2, ..Control::default() }, lent)
    }

    #[test]
    fn a_message_has_the_operations_without_their_links() {
        let withdraw = [&[4, 0, 1][..], &[0; 77]].concat();
        let (control, lent) = wall();
        let operations = [3, 4, 5].map(|number| operations_in_log(&control, &lent, number).expect("a transaction"));
        assert_eq!(operations, [[&withdraw[..], &withdraw].concat(), withdraw.clone(), withdraw.clone()]);
        assert_eq!(all_in_log(&control, &lent), operations);
        let message = of(513, &operations[0]);
        assert_eq!((&message[..4], message.len()), (&[1, 2, 2, 0][..], 164));
        assert_eq!((number(&message), count(&message), super::operations(&message).count()), (513, 2, 2));
    }

    #[test]
    fn a_log_of_any_bytes_has_an_answer() {
        let (control, mut lent) = wall();
        assert_eq!([3, 4, 5, 6, 1, 512, u32::MAX].map(|number| output_asked(&control, &lent, number)), [164, 84, 84, 84, 84, 84, 84]);
        lent.log.lent_mut().fill(1);
        assert_eq!([1, 3, u32::MAX].map(|number| output_asked(&control, &lent, number)), [84; 3]);
        lent.log.set(&[]);
        assert_eq!(output_asked(&control, &lent, 3), 84);
    }

    #[test]
    fn bytes_that_are_not_there_are_zero() {
        assert_eq!((number(&[7]), count(&[7, 1]), operations(&[7, 1]).count()), (7, 0, 0));
    }
}
