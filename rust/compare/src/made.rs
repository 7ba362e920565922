//! What the log makes (02's S-8): 01's L(n), which 02's S-9 works out from the sixth copy and the transactions that the log has, and what of
//! a wall is not so. By the words of 01 and 02, on bytes and apart from the simulator; memory may have any bytes and any length.

use crate::lent::Lent;
use crate::message;
use crate::rows;
use crate::single;
use simulator::{COPY, Control, UNIT};

/// What the retired transactions made, how many they are, and the operations of each that the log has.
pub struct Log {
    sixth: Vec<u8>,
    retired: u32,
    transactions: Vec<Vec<u8>>,
}

/// A logged operation that met its cart in the wrong state.
#[derive(Clone, Copy, PartialEq, Eq, Debug)]
pub struct Misfit {
    /// The number of its transaction, and its place in it from 1.
    pub transaction: u32,
    pub place: u32,
    pub kind: u8,
}

impl Log {
    pub fn new(control: &Control, lent: &Lent) -> Log {
        let sixth = rows::library(lent)[SIXTH * COPY..].to_vec();
        Log { sixth, retired: control.retired, transactions: message::all_in_log(control, lent) }
    }

    /// L(n); of n above what there is, that of all; of n up to retired, the sixth copy.
    pub fn library(&self, n: u32) -> Vec<u8> {
        let mut copy = self.sixth.clone();
        let played = self.transactions.iter().take(n.saturating_sub(self.retired) as usize);
        played.flat_map(|operations| operations.chunks_exact(UNIT)).for_each(|operation| single::act(&mut copy, operation));
        copy
    }

    /// The operations that met their carts in the wrong state.
    fn misfits(&self) -> Vec<Misfit> {
        let (mut copy, mut misfits) = (self.sixth.clone(), Vec::new());
        for (place_in_log, operations) in (1..).zip(&self.transactions) {
            for (place, operation) in (1..).zip(operations.chunks_exact(UNIT)) {
                if !single::meets(&copy, operation) {
                    let transaction = self.retired.saturating_add(place_in_log);
                    misfits.push(Misfit { transaction, place, kind: operation[0] });
                }
                single::act(&mut copy, operation);
            }
        }
        misfits
    }
}

/// The place of the sixth copy among the copies.
pub const SIXTH: usize = 5;

/// How many transactions the head end's copy has taken, for 0, or a studio's.
pub fn taken(copy: usize, control: &Control) -> u32 {
    match copy.checked_sub(1) {
        None => control.commits,
        Some(place) => control.applied[place],
    }
}

/// The copies that there are: the head end's, 0, and those of studios 1 to S.
pub fn copies(control: &Control) -> std::ops::RangeInclusive<usize> {
    0..=control.studios.min(4) as usize
}

/// What refusal 19 is for: "a copy differs from its L, or a logged operation met its cart in the wrong state".
#[derive(Debug, PartialEq, Eq)]
pub struct Faults {
    /// The copies that differ: 0 the head end's, else the studio's.
    pub copies: Vec<usize>,
    pub misfits: Vec<Misfit>,
}

impl Faults {
    pub fn any(&self) -> bool {
        !self.copies.is_empty() || !self.misfits.is_empty()
    }
}

pub fn faults(control: &Control, lent: &Lent) -> Faults {
    let (log, library) = (Log::new(control, lent), rows::library(lent));
    let differs = |copy: &usize| library[COPY * copy..COPY * (copy + 1)] != log.library(taken(*copy, control));
    Faults { copies: copies(control).filter(differs).collect(), misfits: log.misfits() }
}

/// Makes every copy what the log makes of it.
pub fn make_copies(control: &Control, lent: &mut Lent) {
    let log = Log::new(control, lent);
    for copy in copies(control) {
        lent.library.lent_mut()[COPY * copy..COPY * (copy + 1)].copy_from_slice(&log.library(taken(copy, control)));
    }
}

#[cfg(test)]
mod tests {
    use super::*;

    const SHOWN: [u8; 9] = [1, 1, 1, 0, 5, 0, 0, 0, 6];

    /// New cart 1; then a re-cut and a withdraw of it, in one transaction. Studio 1 has applied one of the two, studio 2 none.
    fn wall() -> (Control, Lent) {
        let counts = Control { studios: 2, used: 3, commits: 2, oldest: 1, ..Control::default() };
        let (mut lent, control) = (Lent::zeros(), Control { applied: [1, 0, 0, 0], ..counts });
        let log = lent.log.lent_mut();
        log[..9].copy_from_slice(&SHOWN);
        (log[16], log[14]) = (b'A', 2);
        log[80..93].copy_from_slice(&[3, 0, 1, 0, 9, 0, 0, 0, 9, 0, 0, 0, 3]);
        log[160..163].copy_from_slice(&[4, 0, 1]);
        make_copies(&control, &mut lent);
        (control, lent)
    }

    #[test]
    fn copies_are_what_the_log_makes() {
        let (control, lent) = wall();
        assert_eq!(faults(&control, &lent), Faults { copies: vec![], misfits: vec![] });
        let library = lent.library.lent();
        assert!(library[..COPY].iter().chain(&library[2 * COPY..]).all(|byte| *byte == 0), "withdrawn, and not applied yet");
        assert_eq!((&library[COPY..COPY + 9], library[COPY + 14], library[COPY + 16]), (&SHOWN[..], 0, b'A'));
    }

    #[test]
    fn a_copy_that_differs_is_named() {
        for copy in 0..=4 {
            let (control, mut lent) = wall();
            lent.library.lent_mut()[COPY * copy + 16] ^= 1;
            let differ = if copy <= 2 { vec![copy] } else { vec![] };
            assert_eq!(faults(&control, &lent), Faults { copies: differ, misfits: vec![] });
        }
        let (control, lent) = wall();
        assert_eq!(faults(&Control { applied: [2, 1, 0, 0], ..control }, &lent).copies, [1, 2], "of another moment");
    }

    #[test]
    fn an_operation_in_a_wrong_state_is_named() {
        let (control, mut lent) = wall();
        lent.log.lent_mut()[82] = 2;
        let misfit = Misfit { transaction: 2, place: 1, kind: 3 };
        assert_eq!(faults(&control, &lent), Faults { copies: vec![], misfits: vec![misfit] });
    }

    /// The same with the first transaction retired.
    fn retired() -> (Control, Lent) {
        let (control, mut lent) = wall();
        let library = Log::new(&control, &lent).library(1);
        lent.library.lent_mut()[SIXTH * COPY..].copy_from_slice(&library);
        (Control { used: 2, retired: 1, oldest: 2, applied: [1; 4], ..control }, lent)
    }

    #[test]
    fn copies_are_made_from_the_sixth() {
        let (control, mut lent) = retired();
        assert_eq!(faults(&control, &lent).copies, [2], "studio 2 has applied the first");
        make_copies(&control, &mut lent);
        assert_eq!(faults(&control, &lent), Faults { copies: vec![], misfits: vec![] });
        assert_eq!(lent.library.lent()[2 * COPY..3 * COPY], lent.library.lent()[SIXTH * COPY..]);
        lent.library.lent_mut()[SIXTH * COPY..].fill(0);
        let misfits = [1, 2].map(|place| Misfit { transaction: 2, place, kind: 2 + place as u8 });
        assert_eq!(faults(&control, &lent), Faults { copies: vec![1, 2], misfits: misfits.to_vec() });
    }

    #[test]
    fn memory_of_any_bytes_has_an_answer() {
        let (control, mut lent) = wall();
        let many = Control { studios: u32::MAX, commits: u32::MAX, applied: [u32::MAX; 4], ..control };
        assert_eq!(faults(&many, &lent).copies, [1], "L of all transactions is empty");
        assert!(faults(&Control { retired: u32::MAX, oldest: u32::MAX, ..many }, &lent).misfits.is_empty());
        lent.log.lent_mut().fill(1);
        lent.library.set(&[1; 7]);
        assert!(faults(&many, &lent).any());
    }
}
