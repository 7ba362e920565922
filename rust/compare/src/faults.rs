//! The reasons for refusal 17 at the van's receiver (02's S-6), each looked at for itself, by 02's words; the form of one operation is
//! the simulator's. A byte that a message does not have is taken as zero, and its operations are the whole units after the head.

use crate::message::{self, HEAD};
use crate::single;
use simulator::{COPY, UNIT};

type Holds = fn(copy: &[u8], message: &[u8]) -> bool;

/// Every reason, by the subject that it is counted under: with the number less applied, 0 standing for less too (held) and 2 for more (ahead).
pub const FAULTS: [(&str, Holds); 7] = [
    ("receive of a number 0, number − applied", |_, message| message::number(message) == 0),
    ("receive of a wrong count, number − applied", |_, message| !(1..=8).contains(&message::count(message))),
    ("receive of a fourth byte that is not zero, number − applied", |_, message| message.get(3).is_some_and(|byte| *byte != 0)),
    ("receive of a wrong length, number − applied", |_, message| message.len() != HEAD + UNIT * message::count(message)),
    ("receive of an operation out of form, number − applied", |_, message| operations_out_of_form(message).next().is_some()),
    ("receive in a copy of a wrong length, number − applied", |copy, _| copy.len() != COPY),
    ("receive in a copy out of the layout, number − applied", |copy, _| carts_out_of_form(copy).next().is_some()),
];

/// The places, among the reasons, of those that hold.
pub fn holding(copy: &[u8], message: &[u8]) -> Vec<usize> {
    (0..FAULTS.len()).filter(|place| FAULTS[*place].1(copy, message)).collect()
}

/// The places, from 1, of the operations that are out of form.
pub fn operations_out_of_form(message: &[u8]) -> impl Iterator<Item = u32> {
    (1..).zip(message::operations(message)).filter(|(_, unit)| !simulator::operation_in_form(unit)).map(|(place, _)| place)
}

/// The numbers of the carts that are out of form: neither empty nor held at their place. A held cart has the form of a new.
pub fn carts_out_of_form(copy: &[u8]) -> impl Iterator<Item = u32> {
    let out_of_form = |(place, cart): &(usize, &[u8])| {
        let held = cart[0] == 1 && single::cart_at(cart) == Some(UNIT * place) && simulator::operation_in_form(cart);
        !held && cart.iter().any(|byte| *byte != 0)
    };
    copy.chunks_exact(UNIT).enumerate().filter(out_of_form).map(|(place, _)| place as u32 + 1)
}

#[cfg(test)]
mod tests {
    use super::*;

    fn new_cart_1() -> Vec<u8> {
        let mut operation = vec![0; UNIT];
        operation[..9].copy_from_slice(&[1, 1, 1, 0, 5, 0, 0, 0, 6]);
        operation[16] = b' ';
        operation
    }

    #[test]
    fn a_message_in_form_and_a_copy_of_the_layout_have_no_fault() {
        let copy = [new_cart_1(), vec![0; COPY - UNIT]].concat();
        assert_eq!(holding(&copy, &message::of(65_535, &new_cart_1().repeat(8))), []);
    }

    #[test]
    fn every_fault_is_found_for_itself() {
        let (copy, right) = (vec![0; COPY], message::of(1, &new_cart_1()));
        let changed = |at: usize, value: u8| {
            let mut message = right.clone();
            message[at] = value;
            message
        };
        assert_eq!(holding(&copy, &changed(0, 0)), [0]);
        assert_eq!(holding(&copy, &message::of(1, &new_cart_1().repeat(9))), [1]);
        assert_eq!(holding(&copy, &message::of(1, &[])), [1]);
        assert_eq!(holding(&copy, &changed(3, 1)), [2]);
        assert_eq!(holding(&copy, &[&right[..], &[0]].concat()), [3]);
        assert_eq!(holding(&copy, &right[..83]), [3]);
        assert_eq!(holding(&copy, &right[..3]), [3]);
        assert_eq!(holding(&copy, &changed(16, 1)), [4]);
        assert_eq!(holding(&copy[1..], &right), [5]);
        assert_eq!(holding(&[vec![0; UNIT], new_cart_1(), vec![0; COPY - 2 * UNIT]].concat(), &right), [6]);
    }
}
