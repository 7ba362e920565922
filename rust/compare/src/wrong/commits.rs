//! Mistakes of commit.

use super::mistake::{Mistake, Notes, copy_mistake, copy_of, is_refused, mistake, order_mistake, refused, refused_8, right};
use super::mistake::{clear_waiting, session_unit};
use crate::call::Call;
use crate::left::set_number;
use crate::lent::Lent;
use crate::log::{self, NEXT_TRANSACTION, transaction};
use crate::rows;
use crate::single;
use simulator::{Answer, Control, DONE};

pub const MISTAKES: &[Mistake] = &[
    order_mistake("session number raised when the commit is sent", number_at_send),
    copy_mistake("commit acts on its first operation, logs the rest", first_acts),
    mistake("previous transaction's link not written", no_previous_link),
    mistake("next operation one record off", operation_link_off),
    mistake("next transaction one record off", transaction_link_off),
    mistake("later records carry the transaction's link too", link_in_later_records),
    mistake("carts checked before any operation acts", carts_checked_at_once),
    mistake("refusal 8 leaves the operations before it", refused_leaves_some),
    mistake("log full at 511", log_full_early),
    mistake("rows 5 and 6 swapped", rows_5_6),
    mistake("rows 6 and 7 swapped", rows_6_7),
    mistake("rows 7 and 8 swapped", rows_7_8),
    mistake("commit while a read waits", commits_while_waiting),
    mistake("retitle keeps the tail of the old title", retitle_keeps_tail),
    mistake("withdraw keeps the title", withdraw_keeps_title),
    mistake("the session's number is its low byte", number_low_byte),
];

fn number_at_send(notes: &mut Notes, call: &Call, control: Control, lent: &mut Lent) -> Answer {
    let before = rows::session_number(&rows::stored(call, lent));
    let answer = right(call, control, lent);
    match (call, answer.kind) {
        (Call::Setup { .. }, DONE) => notes.sessions.clear(),
        (Call::Commit { session, .. }, DONE) => {
            set_number(lent, *session, before);
            notes.sessions.insert(answer.value, *session);
        }
        (Call::Send { .. }, DONE) => {
            if let Some(session) = notes.sessions.get(&answer.value) {
                let number = rows::session_number(session_unit(lent, *session));
                set_number(lent, *session, number.max(answer.value));
            }
        }
        _ => {}
    }
    answer
}

fn committed(call: &Call, answer: &Answer) -> bool {
    matches!(call, Call::Commit { .. }) && answer.kind == DONE
}

fn first_acts(_: &mut Notes, call: &Call, control: Control, lent: &mut Lent) -> Answer {
    let before = lent.clone();
    let answer = right(call, control, lent);
    if committed(call, &answer) {
        lent.library.copy_from(&before.library);
        single::act(copy_of(lent, 0), &call.input()[..80]);
    }
    answer
}

/// The records of the transaction before one that was committed, if that is in the log.
fn previous(call: &Call, answer: &Answer, lent: &Lent) -> Option<Vec<usize>> {
    let number = answer.value.checked_sub(1).filter(|number| committed(call, answer) && *number > answer.control.retired)?;
    Some(transaction(&answer.control, lent, number).0)
}

fn no_previous_link(_: &mut Notes, call: &Call, control: Control, lent: &mut Lent) -> Answer {
    let answer = right(call, control, lent);
    if let Some(records) = previous(call, &answer, lent) {
        log::put_link(lent.log.lent_mut(), records[0], NEXT_TRANSACTION, None);
    }
    answer
}

fn operation_link_off(_: &mut Notes, call: &Call, control: Control, lent: &mut Lent) -> Answer {
    let answer = right(call, control, lent);
    if committed(call, &answer) && call.input().len() > 80 {
        let first = 80 * (control.free_first as usize - 1);
        lent.log.lent_mut()[first + 12] = lent.log.byte(first + 12).wrapping_add(1);
    }
    answer
}

fn transaction_link_off(_: &mut Notes, call: &Call, control: Control, lent: &mut Lent) -> Answer {
    let answer = right(call, control, lent);
    if let Some(records) = previous(call, &answer, lent) {
        let at = 80 * records[0] + 14;
        lent.log.lent_mut()[at] = lent.log.byte(at).wrapping_sub(1);
    }
    answer
}

fn link_in_later_records(_: &mut Notes, call: &Call, control: Control, lent: &mut Lent) -> Answer {
    let answer = right(call, control, lent);
    if let Some(records) = previous(call, &answer, lent) {
        let next = log::named(log::link(lent.log.lent(), records[0], NEXT_TRANSACTION));
        records[1..].iter().for_each(|record| log::put_link(lent.log.lent_mut(), *record, NEXT_TRANSACTION, next));
    }
    answer
}

fn carts_checked_at_once(_: &mut Notes, call: &Call, control: Control, lent: &mut Lent) -> Answer {
    let before = lent.clone();
    let answer = right(call, control, lent);
    let head_end = before.library.lent().get(..simulator::COPY).unwrap_or(&[]);
    let stale = |unit: &[u8]| !single::meets(head_end, unit);
    if committed(call, &answer) && call.input().chunks_exact(80).any(stale) {
        lent.copy_from(&before);
        return refused_8(call, control, lent);
    }
    answer
}

fn refused_leaves_some(_: &mut Notes, call: &Call, control: Control, lent: &mut Lent) -> Answer {
    let answer = right(call, control, lent);
    if is_refused(&answer, 8) {
        for unit in call.input().chunks_exact(80) {
            if !single::meets(copy_of(lent, 0), unit) {
                break;
            }
            single::act(copy_of(lent, 0), unit);
        }
    }
    answer
}

fn log_full_early(_: &mut Notes, call: &Call, control: Control, lent: &mut Lent) -> Answer {
    let before = lent.clone();
    let answer = right(call, control, lent);
    if committed(call, &answer) && answer.control.used == 512 {
        lent.copy_from(&before);
        return refused(7, control);
    }
    answer
}

fn any_out_of_form(call: &Call) -> bool {
    call.input().chunks_exact(80).any(|unit| !simulator::operation_in_form(unit))
}

fn rows_5_6(_: &mut Notes, call: &Call, control: Control, lent: &mut Lent) -> Answer {
    let answer = right(call, control, lent);
    if is_refused(&answer, 5) && any_out_of_form(call) {
        return refused(6, control);
    }
    answer
}

fn rows_6_7(_: &mut Notes, call: &Call, control: Control, lent: &mut Lent) -> Answer {
    let answer = right(call, control, lent);
    if is_refused(&answer, 6) && rows::holding(call, &control, lent).contains(&7) {
        return refused(7, control);
    }
    answer
}

fn rows_7_8(_: &mut Notes, call: &Call, control: Control, lent: &mut Lent) -> Answer {
    let answer = right(call, control, lent);
    if is_refused(&answer, 7) && rows::wrong_state_met(call.input(), lent) {
        return refused_8(call, control, lent);
    }
    answer
}

fn commits_while_waiting(_: &mut Notes, call: &Call, control: Control, lent: &mut Lent) -> Answer {
    let answer = right(call, control, lent);
    let Call::Commit { session, .. } = call else { return answer };
    if !is_refused(&answer, 4) {
        return answer;
    }
    let stored = session_unit(lent, *session).to_vec();
    clear_waiting(lent, *session);
    let answer = right(call, control, lent);
    let unit = session_unit(lent, *session);
    unit[..2].copy_from_slice(&stored[..2]);
    unit[16..].copy_from_slice(&stored[16..]);
    answer
}

/// Changes the head end's cart after each operation of one kind.
fn after_kind(kind: u8, call: &Call, lent: &mut Lent, before: &Lent) {
    for unit in call.input().chunks_exact(80).filter(|unit| unit[0] == kind) {
        let cart = 80 * (usize::from(unit[2]) - 1);
        let old = before.library.lent()[cart..cart + 80].to_vec();
        let now = &mut lent.library.lent_mut()[cart..cart + 80];
        for at in 16..80 {
            if now[at] == 0 {
                now[at] = old[at];
            }
        }
    }
}

fn retitle_keeps_tail(_: &mut Notes, call: &Call, control: Control, lent: &mut Lent) -> Answer {
    let before = lent.clone();
    let answer = right(call, control, lent);
    if committed(call, &answer) {
        after_kind(2, call, lent, &before);
    }
    answer
}

fn withdraw_keeps_title(_: &mut Notes, call: &Call, control: Control, lent: &mut Lent) -> Answer {
    let before = lent.clone();
    let answer = right(call, control, lent);
    if committed(call, &answer) {
        after_kind(4, call, lent, &before);
    }
    answer
}

fn number_low_byte(_: &mut Notes, call: &Call, control: Control, lent: &mut Lent) -> Answer {
    let answer = right(call, control, lent);
    if let Call::Commit { session, .. } = call
        && answer.kind == DONE
    {
        session_unit(lent, *session)[3] = 0;
    }
    answer
}
