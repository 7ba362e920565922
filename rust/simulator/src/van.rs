//! The van of request S-6: the form of a message, the writer at the head end, and the
//! receiver with its one copy.

use crate::bytes::{put_u16, u16_at};
use crate::calls::Ended;
use crate::cart::{decode_copy, encode_copy};
use crate::control::{DONE, HELD, Outcome, REFUSED, VanAnswer};
use crate::operation::{Transaction, act_all, transaction_handed_in, transaction_sized};
use crate::sizes::UNIT;
use crate::system::{System, as_u32};

/// Bytes of a message before its operations: number, count, zero.
const HEAD: usize = 4;

struct Message {
    number: u16,
    transaction: Transaction,
}

impl Message {
    /// The message, or `None` when it is out of form. Spaces at a title's ends are in form.
    fn decode(bytes: &[u8]) -> Option<Message> {
        let (head, operations) = bytes.split_at_checked(HEAD)?;
        let number = u16_at(head, 0);
        let counted = transaction_sized(operations) && operations.len() == UNIT * usize::from(head[2]);
        if number == 0 || !counted || head[3] != 0 {
            return None;
        }
        Some(Message { number, transaction: transaction_handed_in(operations)? })
    }

    fn encode(&self) -> Vec<u8> {
        let mut bytes = vec![0; HEAD + UNIT * self.transaction.len()];
        let (head, operations) = bytes.split_at_mut(HEAD);
        put_u16(head, 0, self.number);
        head[2] = u8::try_from(self.transaction.len()).expect("at most 8 operations");
        for (operation, unit) in self.transaction.iter().zip(operations.chunks_exact_mut(UNIT)) {
            operation.encode(unit);
        }
        bytes
    }
}

/// The writer: the message of transaction `number`, from output's start. Row 21 stands
/// before both conditions of 17; 0 is no number that is retired.
pub fn write(system: &System, number: u32, output: &mut [u8]) -> Ended {
    if (1..=system.retired).contains(&number) {
        return Err(21);
    }
    let transaction = system.transaction(number).ok_or(17u32)?;
    let number = u16::try_from(number).expect("commits are at most 65,535");
    let message = Message { number, transaction: transaction.clone() }.encode();
    output.get_mut(..message.len()).ok_or(17u32)?.copy_from_slice(&message);
    Ok(Outcome::Done(as_u32(message.len())))
}

/// The receiver. Row 17 stands before 18 and before held.
pub fn receive(copy: &mut [u8], applied: u32, message: &[u8]) -> VanAnswer {
    let (Some(message), Some(mut carts)) = (Message::decode(message), decode_copy(copy)) else {
        return VanAnswer { kind: REFUSED, value: 17, applied };
    };
    let number = u32::from(message.number);
    // How far the number is above applied: no sum, so nothing wraps.
    match number.saturating_sub(applied) {
        0 => VanAnswer { kind: HELD, value: number, applied },
        1 => {
            act_all(&message.transaction, &mut carts);
            encode_copy(&carts, copy);
            VanAnswer { kind: DONE, value: number, applied: number }
        }
        _ => VanAnswer { kind: REFUSED, value: 18, applied },
    }
}
