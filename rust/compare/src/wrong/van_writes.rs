//! Mistakes of the van's writer (02's S-6).

use super::mistake::{Mistake, Notes, is_refused, mistake, refused, right, van_mistake};
use crate::call::Call;
use crate::lent::Lent;
use crate::log;
use crate::message::{self, HEAD};
use crate::rows;
use simulator::{Answer, Control, DONE, UNIT};
use std::ops::Range;

pub const MISTAKES: &[Mistake] = &[
    van_mistake(mistake("van_write: the links are left in", links_left)),
    mistake("van_write: the link to the next operation is left in", next_operation_left),
    mistake("van_write: the link to the next transaction is left in", next_transaction_left),
    mistake("van_write: the links are cleared in the log", links_cleared),
    mistake("van_write: the number is cut to 16 bits", low_16),
    van_mistake(mistake("van_write: the number is taken from 0", from_0)),
    mistake("van_write: number 0 is the first transaction", number_0),
    mistake("van_write: the last transaction is refused", last_refused),
    van_mistake(mistake("van_write: the number's high byte is written first", high_byte_first)),
    mistake("van_write: only transactions that a studio was sent", sent_only),
    mistake("van_write: only transactions that every studio has applied", applied_only),
    mistake("van_write: a spaced title is refused", spaced_refused),
    van_mistake(mistake("van_write: the first operation only", first_operation)),
    mistake("van_write: the fourth byte is left", fourth_byte_left),
    mistake("van_write: later output bytes are cleared", output_cleared),
    mistake("van_write: a byte is written past output", past_output),
    mistake("van_write: what fits is written though refused", written_though_refused),
    mistake("van_write: an output too short by one is accepted", short_by_one),
    mistake("van_write: output must have 644 bytes", output_644),
    van_mistake(mistake("van_write: the length is that of the operations", length_of_operations)),
    mistake("van_write: the transaction counts as sent", counts_as_sent),
    mistake("van_write: row 17 before row 1", row_17_before_1),
    mistake("van_write: row 17 before row 2", row_17_before_2),
    mistake("van_write: row 17 before row 21", row_17_before_21),
    mistake("van_write: 17 for a retired number", retired_17),
    mistake("van_write: 17 for a retired number but the last", earlier_17),
    mistake("van_write: 21 for number 0", number_0_21),
    mistake("van_write: 21 for the oldest transaction of the log", oldest_21),
];

/// A message that was written: its number, and the output before it.
struct Message {
    number: u32,
    output_before: Vec<u8>,
}

type Change = fn(&Message, &Control, &mut Lent, &mut Answer);

/// Plays the call; after a message was written `change` makes the mistake.
fn changed(call: &Call, control: Control, lent: &mut Lent, change: Change) -> Answer {
    let output_before = lent.output.lent().to_vec();
    let mut answer = right(call, control, lent);
    if let (Call::VanWrite { number, .. }, DONE) = (call, answer.kind) {
        change(&Message { number: *number, output_before }, &control, lent, &mut answer);
    }
    answer
}

/// Where a message was written and this holds, 17 in its place.
fn refusing(call: &Call, control: Control, lent: &mut Lent, holds: fn(u32, &Control, &Lent) -> bool) -> Answer {
    let before = lent.output.clone();
    let answer = right(call, control, lent);
    match call {
        Call::VanWrite { number, .. } if answer.kind == DONE && holds(*number, &control, lent) => {
            lent.output.copy_from(&before);
            refused(17, control)
        }
        _ => answer,
    }
}

/// Plays a van_write of another number.
fn numbered(call: &Call, control: Control, lent: &mut Lent, other: fn(u32) -> u32) -> Answer {
    match *call {
        Call::VanWrite { number, output } => right(&Call::VanWrite { number: other(number), output }, control, lent),
        _ => right(call, control, lent),
    }
}

/// Puts these bytes of each record into the message.
fn leave(bytes: Range<usize>, message: &Message, control: &Control, lent: &mut Lent) {
    let (records, _) = log::transaction(control, lent, message.number);
    for (place, record) in records.into_iter().enumerate() {
        let left = &lent.log.lent()[UNIT * record..][bytes.clone()];
        lent.output.lent_mut()[HEAD + UNIT * place..][bytes.clone()].copy_from_slice(left);
    }
}

fn links_left(_: &mut Notes, call: &Call, control: Control, lent: &mut Lent) -> Answer {
    changed(call, control, lent, |message, control, lent, _| leave(12..16, message, control, lent))
}

fn next_operation_left(_: &mut Notes, call: &Call, control: Control, lent: &mut Lent) -> Answer {
    changed(call, control, lent, |message, control, lent, _| leave(12..14, message, control, lent))
}

fn next_transaction_left(_: &mut Notes, call: &Call, control: Control, lent: &mut Lent) -> Answer {
    changed(call, control, lent, |message, control, lent, _| leave(14..16, message, control, lent))
}

fn links_cleared(_: &mut Notes, call: &Call, control: Control, lent: &mut Lent) -> Answer {
    changed(call, control, lent, |message, control, lent, _| {
        let (records, _) = log::transaction(control, lent, message.number);
        records.into_iter().for_each(|record| lent.log.lent_mut()[UNIT * record..][12..16].fill(0));
    })
}

fn low_16(_: &mut Notes, call: &Call, control: Control, lent: &mut Lent) -> Answer {
    numbered(call, control, lent, |number| number & 0xFFFF)
}

fn from_0(_: &mut Notes, call: &Call, control: Control, lent: &mut Lent) -> Answer {
    numbered(call, control, lent, |number| number.wrapping_add(1))
}

fn number_0(_: &mut Notes, call: &Call, control: Control, lent: &mut Lent) -> Answer {
    numbered(call, control, lent, |number| number.max(1))
}

fn last_refused(_: &mut Notes, call: &Call, control: Control, lent: &mut Lent) -> Answer {
    refusing(call, control, lent, |number, control, _| number == control.commits)
}

fn high_byte_first(_: &mut Notes, call: &Call, control: Control, lent: &mut Lent) -> Answer {
    changed(call, control, lent, |_, _, lent, _| lent.output.lent_mut().swap(0, 1))
}

fn sent_only(_: &mut Notes, call: &Call, control: Control, lent: &mut Lent) -> Answer {
    refusing(call, control, lent, |number, control, _| control.sent.iter().all(|sent| *sent < number))
}

fn applied_only(_: &mut Notes, call: &Call, control: Control, lent: &mut Lent) -> Answer {
    refusing(call, control, lent, |number, control, _| {
        let studios = control.studios as usize;
        control.applied[..studios].iter().any(|applied| *applied < number)
    })
}

fn spaced_refused(_: &mut Notes, call: &Call, control: Control, lent: &mut Lent) -> Answer {
    refusing(call, control, lent, |number, control, lent| {
        let operations = message::operations_in_log(control, lent, number).unwrap_or_default();
        operations.chunks_exact(UNIT).any(rows::title_spaced)
    })
}

fn first_operation(_: &mut Notes, call: &Call, control: Control, lent: &mut Lent) -> Answer {
    changed(call, control, lent, |message, _, lent, answer| {
        let (length, output) = (HEAD + UNIT, lent.output.lent_mut());
        output[2] = 1;
        output[length..].copy_from_slice(&message.output_before[length..]);
        answer.value = length as u32;
    })
}

fn fourth_byte_left(_: &mut Notes, call: &Call, control: Control, lent: &mut Lent) -> Answer {
    changed(call, control, lent, |message, _, lent, _| lent.output.lent_mut()[3] = message.output_before[3])
}

fn output_cleared(_: &mut Notes, call: &Call, control: Control, lent: &mut Lent) -> Answer {
    changed(call, control, lent, |_, _, lent, answer| lent.output.lent_mut()[answer.value as usize..].fill(0))
}

fn past_output(_: &mut Notes, call: &Call, control: Control, lent: &mut Lent) -> Answer {
    changed(call, control, lent, |_, _, lent, _| lent.output.trespass(lent.output.len() as isize, 0))
}

/// Where output alone is too short by so many bytes: writes what fits.
fn write_what_fits(call: &Call, control: &Control, lent: &mut Lent, answer: &Answer, short: Range<usize>) -> Option<usize> {
    let Call::VanWrite { number, output } = call else { return None };
    if !is_refused(answer, 17) || !(1..=control.commits).contains(number) {
        return None;
    }
    let message = message::of(*number, &message::operations_in_log(control, lent, *number)?);
    if !short.contains(&(message.len() - output)) {
        return None;
    }
    lent.output.lent_mut().copy_from_slice(&message[..*output]);
    Some(message.len())
}

fn written_though_refused(_: &mut Notes, call: &Call, control: Control, lent: &mut Lent) -> Answer {
    let answer = right(call, control, lent);
    write_what_fits(call, &control, lent, &answer, 1..message::MOST);
    answer
}

fn short_by_one(_: &mut Notes, call: &Call, control: Control, lent: &mut Lent) -> Answer {
    let answer = right(call, control, lent);
    match write_what_fits(call, &control, lent, &answer, 1..2) {
        Some(length) => Answer { kind: DONE, value: length as u32, ..answer },
        None => answer,
    }
}

fn output_644(_: &mut Notes, call: &Call, control: Control, lent: &mut Lent) -> Answer {
    refusing(call, control, lent, |_, _, lent| lent.output.len() < message::MOST)
}

fn length_of_operations(_: &mut Notes, call: &Call, control: Control, lent: &mut Lent) -> Answer {
    changed(call, control, lent, |_, _, _, answer| answer.value -= HEAD as u32)
}

fn counts_as_sent(_: &mut Notes, call: &Call, control: Control, lent: &mut Lent) -> Answer {
    changed(call, control, lent, |message, _, _, answer| {
        let sent = &mut answer.control.sent[0];
        *sent = message.number.max(*sent);
    })
}

/// Where this row stops the call and row 17 holds too, 17 in its place.
fn row_17_before(row: u32, call: &Call, control: Control, lent: &mut Lent) -> Answer {
    let answer = right(call, control, lent);
    match is_refused(&answer, row) && rows::holding(call, &control, lent).contains(&17) {
        true => refused(17, control),
        false => answer,
    }
}

fn row_17_before_1(_: &mut Notes, call: &Call, control: Control, lent: &mut Lent) -> Answer {
    row_17_before(1, call, control, lent)
}

fn row_17_before_2(_: &mut Notes, call: &Call, control: Control, lent: &mut Lent) -> Answer {
    row_17_before(2, call, control, lent)
}

fn row_17_before_21(_: &mut Notes, call: &Call, control: Control, lent: &mut Lent) -> Answer {
    row_17_before(21, call, control, lent)
}

/// Plays the call; 17 in the place of 21 where `holds` says so of the number.
fn in_place_of_21(call: &Call, control: Control, lent: &mut Lent, holds: fn(u32, &Control) -> bool) -> Answer {
    let answer = right(call, control, lent);
    match call {
        Call::VanWrite { number, .. } if is_refused(&answer, 21) && holds(*number, &control) => refused(17, control),
        _ => answer,
    }
}

fn retired_17(_: &mut Notes, call: &Call, control: Control, lent: &mut Lent) -> Answer {
    in_place_of_21(call, control, lent, |_, _| true)
}

fn earlier_17(_: &mut Notes, call: &Call, control: Control, lent: &mut Lent) -> Answer {
    in_place_of_21(call, control, lent, |number, control| number < control.retired)
}

fn number_0_21(_: &mut Notes, call: &Call, control: Control, lent: &mut Lent) -> Answer {
    let answer = right(call, control, lent);
    match matches!(call, Call::VanWrite { number: 0, .. }) && is_refused(&answer, 17) && control.retired > 0 {
        true => refused(21, control),
        false => answer,
    }
}

fn oldest_21(_: &mut Notes, call: &Call, control: Control, lent: &mut Lent) -> Answer {
    let answer = refusing(call, control, lent, |number, control, _| number == control.retired + 1);
    let is_oldest = matches!(call, Call::VanWrite { number, .. } if Some(*number) == control.retired.checked_add(1));
    match is_oldest && is_refused(&answer, 17) {
        true => refused(21, control),
        false => answer,
    }
}
