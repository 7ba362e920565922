//! Mistakes of row 16, and of memory and requests with spaced titles, which begin or end with a space.

use super::mistake::{Mistake, Notes, copy_mistake, copy_of, is_refused, mistake, order_mistake, refused, refused_8, right};
use crate::call::Call;
use crate::lent::{Lent, Part};
use crate::log;
use crate::make::put_title;
use crate::rows::{self, spaced_title_met, title, title_spaced};
use crate::single;
use simulator::{ANSWERED, Answer, COPY, Control, DONE};

pub const MISTAKES: &[Mistake] = &[
    mistake("row 16: spaces inside a title refused too", spaces_inside),
    mistake("row 16: only the first byte of a title looked at", first_byte),
    mistake("row 16: only the last byte of a title looked at", last_byte),
    mistake("row 16: byte 79 looked at, not the title's last", byte_79),
    mistake("row 16: both ends must be spaces", both_ends),
    mistake("row 16: a title of one space let through", one_space),
    mistake("row 16: only the first operation's title looked at", first_operation),
    mistake("row 16: the last operation's title not looked at", all_but_last),
    mistake("row 16: a new's title not looked at", only_retitles),
    mistake("row 16: a retitle's title not looked at", only_news),
    mistake("row 16: the cart's own title let through", own_title),
    mistake("row 16: the cart's present title looked at too", present_title),
    mistake("commit leaves out row 16", not_by_commit),
    mistake("preview leaves out row 16", not_by_preview),
    order_mistake("commit takes the spaces off a title", takes_spaces_off),
    mistake("rows 6 and 16 swapped", rows_6_16),
    mistake("rows 6 and 16 tried operation by operation", rows_6_16_in_turn),
    mistake("rows 16 and 7 swapped", rows_16_7),
    mistake("row 16 after row 8", row_16_last),
    mistake("a title request with a space is refused by 12", request_refused),
    mistake("layout: a cart with a spaced title is out of it", cart_out_of_layout),
    mistake("layout: a record with a spaced title is out of it", record_out_of_layout),
    mistake("layout: a waiting read of a spaced title is out of it", waiting_out_of_layout),
    copy_mistake("refresh passes over a record with a spaced title", record_passed_over),
    order_mistake("a read shows a title without its spaces", shown_without_spaces),
];

fn is_edit(call: &Call) -> bool {
    matches!(call, Call::Commit { .. } | Call::Preview { .. })
}

/// Plays a commit or preview with other operations than those handed in.
fn with_operations(call: &Call, control: Control, lent: &mut Lent, operations: &[u8]) -> Answer {
    lent.input.set(operations);
    let answer = right(call, control, lent);
    lent.input.set(call.input());
    answer
}

/// The operations with each title that has a space at an end changed.
fn retitled(operations: &[u8], change: fn(&mut [u8])) -> Vec<u8> {
    let mut changed = operations.to_vec();
    changed.chunks_exact_mut(80).filter(|unit| title_spaced(unit)).for_each(change);
    changed
}

/// Plays an edit that row 16 stops as if there were no such row: with letters for its spaces, then its titles as they are.
fn let_through(call: &Call, control: Control, lent: &mut Lent) -> Answer {
    let lettered = retitled(call.input(), |unit| {
        let last = 15 + usize::from(unit[1]);
        (unit[16], unit[last]) = (b'x', b'x');
    });
    let mut head_end = copy_of(lent, 0).to_vec();
    let taken = log::free(lent.log.lent(), &control);
    let answer = with_operations(call, control, lent, &lettered);
    if matches!(call, Call::Commit { .. }) && answer.kind == DONE {
        for (at, unit) in taken.into_iter().zip(call.input().chunks_exact(80)) {
            single::act(&mut head_end, unit);
            lent.log.lent_mut()[80 * at + 16..80 * (at + 1)].copy_from_slice(&unit[16..]);
        }
        copy_of(lent, 0).copy_from_slice(&head_end);
    }
    answer
}

/// Row 16 by another judgement of the head end's copy and the operations; the rows before and after it stay.
fn row_16_by(call: &Call, control: Control, lent: &mut Lent, holds: impl FnOnce(&[u8], &[u8]) -> bool) -> Answer {
    let before = lent.clone();
    let answer = right(call, control, lent);
    let reached = answer.kind == DONE || [16, 7, 8].into_iter().any(|row| is_refused(&answer, row));
    if !is_edit(call) || !reached {
        return answer;
    }
    if holds(&before.library.lent()[..COPY], call.input()) {
        lent.copy_from(&before);
        return refused(16, control);
    }
    if is_refused(&answer, 16) { let_through(call, control, lent) } else { answer }
}

/// The same where each operation is judged by itself.
fn row_16_if_any(call: &Call, control: Control, lent: &mut Lent, spaced: fn(&[u8]) -> bool) -> Answer {
    row_16_by(call, control, lent, |_, operations| operations.chunks_exact(80).any(spaced))
}

fn spaces_inside(_: &mut Notes, call: &Call, control: Control, lent: &mut Lent) -> Answer {
    row_16_if_any(call, control, lent, |unit| title(unit).contains(&32))
}

fn first_byte(_: &mut Notes, call: &Call, control: Control, lent: &mut Lent) -> Answer {
    row_16_if_any(call, control, lent, |unit| unit[16] == 32)
}

fn last_byte(_: &mut Notes, call: &Call, control: Control, lent: &mut Lent) -> Answer {
    row_16_if_any(call, control, lent, |unit| title(unit).last() == Some(&32))
}

fn byte_79(_: &mut Notes, call: &Call, control: Control, lent: &mut Lent) -> Answer {
    row_16_if_any(call, control, lent, |unit| unit[16] == 32 || unit[79] == 32)
}

fn both_ends(_: &mut Notes, call: &Call, control: Control, lent: &mut Lent) -> Answer {
    row_16_if_any(call, control, lent, |unit| unit[16] == 32 && title(unit).last() == Some(&32))
}

fn one_space(_: &mut Notes, call: &Call, control: Control, lent: &mut Lent) -> Answer {
    row_16_if_any(call, control, lent, |unit| title_spaced(unit) && unit[1] > 1)
}

fn first_operation(_: &mut Notes, call: &Call, control: Control, lent: &mut Lent) -> Answer {
    row_16_by(call, control, lent, |_, operations| spaced_title_met(&operations[..80]))
}

fn all_but_last(_: &mut Notes, call: &Call, control: Control, lent: &mut Lent) -> Answer {
    row_16_by(call, control, lent, |_, operations| spaced_title_met(&operations[..operations.len() - 80]))
}

fn only_retitles(_: &mut Notes, call: &Call, control: Control, lent: &mut Lent) -> Answer {
    row_16_if_any(call, control, lent, |unit| unit[0] == 2 && title_spaced(unit))
}

fn only_news(_: &mut Notes, call: &Call, control: Control, lent: &mut Lent) -> Answer {
    row_16_if_any(call, control, lent, |unit| unit[0] == 1 && title_spaced(unit))
}

/// The cart that an operation in form names, in this copy.
fn cart_of<'a>(copy: &'a [u8], unit: &[u8]) -> &'a [u8] {
    let at = single::cart_at(unit).expect("an operation in form");
    &copy[at..at + 80]
}

fn own_title(_: &mut Notes, call: &Call, control: Control, lent: &mut Lent) -> Answer {
    row_16_by(call, control, lent, |head_end, operations| {
        operations.chunks_exact(80).any(|unit| title_spaced(unit) && title(cart_of(head_end, unit)) != title(unit))
    })
}

fn present_title(_: &mut Notes, call: &Call, control: Control, lent: &mut Lent) -> Answer {
    row_16_by(call, control, lent, |head_end, operations| {
        operations.chunks_exact(80).any(|unit| title_spaced(unit) || unit[0] == 2 && title_spaced(cart_of(head_end, unit)))
    })
}

fn not_by_commit(_: &mut Notes, call: &Call, control: Control, lent: &mut Lent) -> Answer {
    let commits = matches!(call, Call::Commit { .. });
    row_16_by(call, control, lent, |_, operations| !commits && spaced_title_met(operations))
}

fn not_by_preview(_: &mut Notes, call: &Call, control: Control, lent: &mut Lent) -> Answer {
    let previews = matches!(call, Call::Preview { .. });
    row_16_by(call, control, lent, |_, operations| !previews && spaced_title_met(operations))
}

/// A unit's title without the spaces at its ends; the bytes after it are zeros.
fn trim(unit: &mut [u8]) {
    let trimmed = title(unit).trim_ascii().to_vec();
    put_title(unit, &trimmed);
}

fn takes_spaces_off(_: &mut Notes, call: &Call, control: Control, lent: &mut Lent) -> Answer {
    let answer = right(call, control, lent);
    match is_refused(&answer, 16) {
        true => with_operations(call, control, lent, &retitled(call.input(), trim)),
        false => answer,
    }
}

fn rows_6_16(_: &mut Notes, call: &Call, control: Control, lent: &mut Lent) -> Answer {
    let answer = right(call, control, lent);
    match is_refused(&answer, 6) && spaced_title_met(call.input()) {
        true => refused(16, control),
        false => answer,
    }
}

fn rows_6_16_in_turn(_: &mut Notes, call: &Call, control: Control, lent: &mut Lent) -> Answer {
    let answer = right(call, control, lent);
    let mut in_form = call.input().chunks_exact(80).take_while(|unit| simulator::operation_in_form(unit));
    match is_refused(&answer, 6) && in_form.any(title_spaced) {
        true => refused(16, control),
        false => answer,
    }
}

fn rows_16_7(_: &mut Notes, call: &Call, control: Control, lent: &mut Lent) -> Answer {
    let answer = right(call, control, lent);
    match is_refused(&answer, 16) && rows::holding(call, &control, lent).contains(&7) {
        true => refused(7, control),
        false => answer,
    }
}

fn row_16_last(_: &mut Notes, call: &Call, control: Control, lent: &mut Lent) -> Answer {
    let answer = right(call, control, lent);
    match is_refused(&answer, 16) && rows::wrong_state_met(call.input(), lent) {
        true => refused_8(call, control, lent),
        false => answer,
    }
}

/// Plays the call; if it came past the rows before one and `holds` on what was lent, it is refused by that row instead.
fn refused_if(row: u32, call: &Call, control: Control, lent: &mut Lent, holds: impl FnOnce(&Lent) -> bool) -> Answer {
    let before = lent.clone();
    let answer = right(call, control, lent);
    let stopped = call.rows().iter().take_while(|earlier| **earlier != row).any(|earlier| is_refused(&answer, *earlier));
    if stopped || !call.rows().contains(&row) || !holds(&before) {
        return answer;
    }
    lent.copy_from(&before);
    refused(row, control)
}

fn request_refused(_: &mut Notes, call: &Call, control: Control, lent: &mut Lent) -> Answer {
    let request = call.input();
    refused_if(12, call, control, lent, |_| request.len() == 80 && request[0] == 2 && title_spaced(request))
}

fn any_spaced(part: &Part, has_title: fn(&[u8]) -> bool) -> bool {
    part.lent().chunks_exact(80).any(|unit| has_title(unit) && title_spaced(unit))
}

fn cart_out_of_layout(_: &mut Notes, call: &Call, control: Control, lent: &mut Lent) -> Answer {
    refused_if(2, call, control, lent, |lent| any_spaced(&lent.library, |unit| unit[0] == 1))
}

fn record_out_of_layout(_: &mut Notes, call: &Call, control: Control, lent: &mut Lent) -> Answer {
    refused_if(2, call, control, lent, |lent| any_spaced(&lent.log, |unit| matches!(unit[0], 1 | 2)))
}

fn waiting_out_of_layout(_: &mut Notes, call: &Call, control: Control, lent: &mut Lent) -> Answer {
    refused_if(2, call, control, lent, |lent| any_spaced(&lent.sessions, |unit| unit[0] == 2))
}

fn record_passed_over(_: &mut Notes, call: &Call, control: Control, lent: &mut Lent) -> Answer {
    let before = lent.library.clone();
    let answer = right(call, control, lent);
    if let Call::Refresh { studio } = call
        && answer.kind == DONE
    {
        let (_, operations) = log::transaction(&answer.control, lent, answer.value);
        lent.library.copy_from(&before);
        let copy = copy_of(lent, *studio);
        operations.iter().filter(|unit| !title_spaced(unit)).for_each(|unit| single::act(copy, unit));
    }
    answer
}

fn shown_without_spaces(_: &mut Notes, call: &Call, control: Control, lent: &mut Lent) -> Answer {
    let asked = match call {
        Call::Read { request, .. } => rows::output_asked(request),
        _ => rows::output_asked(&rows::stored(call, lent)),
    };
    let answer = right(call, control, lent);
    if answer.kind == ANSWERED {
        lent.output.lent_mut()[..asked].chunks_exact_mut(80).filter(|unit| title_spaced(unit)).for_each(trim);
    }
    answer
}
