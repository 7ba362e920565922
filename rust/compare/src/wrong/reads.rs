//! Mistakes of read and collect.

use super::mistake::{Mistake, Notes, copy_of, is_refused, mistake, order_mistake, refused, right};
use super::mistake::{clear_waiting, session_unit};
use crate::call::Call;
use crate::lent::Lent;
use crate::rows;
use simulator::{ANSWERED, Answer, COPY, Control, WAITS};

pub const MISTAKES: &[Mistake] = &[
    order_mistake("a waiting read answered from the head end", from_head_end),
    order_mistake("a title matched on its first 32 bytes", title_32),
    order_mistake("a title matched as a beginning", title_beginning),
    order_mistake("a title matched without the spaces at its ends", title_without_spaces),
    order_mistake("found counts the places asked", found_places),
    order_mistake("found counts each number once", found_once),
    order_mistake("empty carts for every read", empty_carts),
    order_mistake("state is sent, not applied", state_is_sent),
    mistake("row 13 after waiting", row_13_late),
    mistake("rows 12 and 13 swapped", rows_12_13),
    mistake("rows 14 and 13 swapped", rows_14_13),
    mistake("collect clears bytes 2–3", collect_clears_number),
    mistake("collect keeps the request", collect_keeps_request),
    mistake("stored request without the session's number", stored_without_number),
    mistake("a second read takes the first one's place", second_read),
    order_mistake("several carts of a title: the first is written", several_writes_first),
    mistake("later output bytes cleared", output_cleared),
    order_mistake("an empty cart leaves the output as it was", empty_leaves_output),
    mistake("waits gives applied", waits_gives_applied),
    mistake("waits writes zeros", waits_writes),
    mistake("a read waits though its copy has caught up", waits_too_long),
    mistake("output must have 2,560 bytes", output_2560),
    order_mistake("title search leaves out cart 128", title_without_last),
    mistake("read answered from studio 1's copy", from_first_studio),
];

fn reads(call: &Call) -> bool {
    matches!(call, Call::Read { .. } | Call::Collect { .. })
}

fn answered(call: &Call, answer: &Answer) -> bool {
    reads(call) && answer.kind == ANSWERED
}

/// The request that an answered call is about: handed in, or stored before.
fn request_of(call: &Call, before: &[u8]) -> Vec<u8> {
    match call {
        Call::Read { request, .. } => request.clone(),
        _ => before.to_vec(),
    }
}

/// The answer that the same read gets on a changed copy of what is lent.
fn on_changed(call: &Call, control: Control, lent: &mut Lent, change: impl FnOnce(&mut Lent, u32, u32)) -> Answer {
    let session = rows::session_of(call).expect("reads name a session");
    let studio = rows::session_studio(call, &control);
    let mut changed = lent.clone();
    change(&mut changed, session, studio);
    let answer = right(call, control, &mut changed);
    lent.output.copy_from(&changed.output);
    answer
}

fn from_head_end(_: &mut Notes, call: &Call, control: Control, lent: &mut Lent) -> Answer {
    let before = lent.clone();
    let answer = right(call, control, lent);
    if !matches!(call, Call::Read { .. }) || answer.kind != WAITS {
        return answer;
    }
    lent.copy_from(&before);
    on_changed(call, control, lent, |lent, session, studio| {
        let head_end = copy_of(lent, 0).to_vec();
        copy_of(lent, studio).copy_from_slice(&head_end);
        session_unit(lent, session)[2..4].fill(0);
    })
}

/// Title reads done anew with another test of equality.
fn titles_by(call: &Call, control: Control, lent: &mut Lent, equal: fn(cart: &[u8], wanted: &[u8]) -> bool) -> Answer {
    let stored = rows::stored(call, lent);
    let mut answer = right(call, control, lent);
    let request = request_of(call, &stored);
    if !answered(call, &answer) || request[0] != 2 {
        return answer;
    }
    let copy = copy_of(lent, rows::session_studio(call, &control)).to_vec();
    let fits = |cart: &&[u8]| cart[0] == 1 && equal(cart, &request);
    let carts: Vec<&[u8]> = copy.chunks_exact(80).filter(fits).collect();
    let output = &mut lent.output.lent_mut()[..80];
    output.fill(0);
    if let [cart] = carts[..] {
        output.copy_from_slice(cart);
    }
    answer.found = carts.len() as u32;
    answer
}

fn title_32(_: &mut Notes, call: &Call, control: Control, lent: &mut Lent) -> Answer {
    titles_by(call, control, lent, |cart, wanted| cart[16..48] == wanted[16..48])
}

fn title_beginning(_: &mut Notes, call: &Call, control: Control, lent: &mut Lent) -> Answer {
    titles_by(call, control, lent, |cart, wanted| {
        let end = 16 + usize::from(wanted[1]);
        cart[16..end] == wanted[16..end]
    })
}

fn title_without_spaces(_: &mut Notes, call: &Call, control: Control, lent: &mut Lent) -> Answer {
    titles_by(call, control, lent, |cart, wanted| rows::title(cart).trim_ascii() == rows::title(wanted).trim_ascii())
}

fn title_without_last(_: &mut Notes, call: &Call, control: Control, lent: &mut Lent) -> Answer {
    titles_by(call, control, lent, |cart, wanted| cart[2] != 128 && cart[1] == wanted[1] && cart[16..] == wanted[16..])
}

fn several_writes_first(_: &mut Notes, call: &Call, control: Control, lent: &mut Lent) -> Answer {
    let stored = rows::stored(call, lent);
    let answer = right(call, control, lent);
    let request = request_of(call, &stored);
    if answered(call, &answer) && request[0] == 2 && answer.found > 1 {
        let copy = copy_of(lent, rows::session_studio(call, &control)).to_vec();
        let titled = |cart: &&[u8]| cart[1] == request[1] && cart[16..] == request[16..];
        let first = copy.chunks_exact(80).find(titled).expect("found is above 1");
        lent.output.lent_mut()[..80].copy_from_slice(first);
    }
    answer
}

fn found_places(_: &mut Notes, call: &Call, control: Control, lent: &mut Lent) -> Answer {
    let stored = rows::stored(call, lent);
    let mut answer = right(call, control, lent);
    let request = request_of(call, &stored);
    if answered(call, &answer) && request[0] == 1 {
        answer.found = u32::from(request[1]);
    }
    answer
}

fn found_once(_: &mut Notes, call: &Call, control: Control, lent: &mut Lent) -> Answer {
    let stored = rows::stored(call, lent);
    let mut answer = right(call, control, lent);
    let request = request_of(call, &stored);
    if answered(call, &answer) && request[0] == 1 {
        let count = usize::from(request[1]);
        let carts = lent.output.lent().chunks_exact(80).take(count).filter(|cart| cart[0] == 1);
        let mut numbers: Vec<&[u8]> = carts.map(|cart| &cart[2..4]).collect();
        numbers.sort_unstable();
        numbers.dedup();
        answer.found = numbers.len() as u32;
    }
    answer
}

fn empty_carts(_: &mut Notes, call: &Call, control: Control, lent: &mut Lent) -> Answer {
    let stored = rows::stored(call, lent);
    let mut answer = right(call, control, lent);
    if answered(call, &answer) {
        let end = rows::output_asked(&request_of(call, &stored));
        lent.output.lent_mut()[..end].fill(0);
        answer.found = 0;
    }
    answer
}

fn state_is_sent(_: &mut Notes, call: &Call, control: Control, lent: &mut Lent) -> Answer {
    let mut answer = right(call, control, lent);
    if answered(call, &answer) {
        answer.value = control.sent[rows::session_studio(call, &control) as usize - 1];
    }
    answer
}

fn row_13_late(_: &mut Notes, call: &Call, control: Control, lent: &mut Lent) -> Answer {
    let answer = right(call, control, lent);
    if !is_refused(&answer, 13) {
        return answer;
    }
    let mut roomy = lent.clone();
    roomy.output.set(&[0; 2_560]);
    let second = right(call, control, &mut roomy);
    if second.kind != WAITS {
        return answer;
    }
    lent.sessions.copy_from(&roomy.sessions);
    second
}

fn rows_12_13(_: &mut Notes, call: &Call, control: Control, lent: &mut Lent) -> Answer {
    let answer = right(call, control, lent);
    if is_refused(&answer, 12) && call.output() < rows::output_asked(call.input()) {
        return refused(13, control);
    }
    answer
}

fn rows_14_13(_: &mut Notes, call: &Call, control: Control, lent: &mut Lent) -> Answer {
    let answer = right(call, control, lent);
    if is_refused(&answer, 14) && call.output() < 80 {
        return refused(13, control);
    }
    answer
}

fn collect_clears_number(_: &mut Notes, call: &Call, control: Control, lent: &mut Lent) -> Answer {
    let answer = right(call, control, lent);
    if let Call::Collect { session, .. } = call
        && answer.kind == ANSWERED
    {
        session_unit(lent, *session)[2..4].fill(0);
    }
    answer
}

fn collect_keeps_request(_: &mut Notes, call: &Call, control: Control, lent: &mut Lent) -> Answer {
    let before = lent.sessions.clone();
    let answer = right(call, control, lent);
    if matches!(call, Call::Collect { .. }) {
        lent.sessions.copy_from(&before);
    }
    answer
}

fn stored_without_number(_: &mut Notes, call: &Call, control: Control, lent: &mut Lent) -> Answer {
    let answer = right(call, control, lent);
    if let Call::Read { session, .. } = call
        && answer.kind == WAITS
    {
        session_unit(lent, *session)[2..4].fill(0);
    }
    answer
}

fn second_read(_: &mut Notes, call: &Call, control: Control, lent: &mut Lent) -> Answer {
    let answer = right(call, control, lent);
    let Call::Read { session, .. } = call else { return answer };
    if !is_refused(&answer, 4) {
        return answer;
    }
    clear_waiting(lent, *session);
    right(call, control, lent)
}

fn output_cleared(_: &mut Notes, call: &Call, control: Control, lent: &mut Lent) -> Answer {
    let stored = rows::stored(call, lent);
    let answer = right(call, control, lent);
    if answered(call, &answer) {
        let end = rows::output_asked(&request_of(call, &stored));
        lent.output.lent_mut()[end..].fill(0);
    }
    answer
}

fn empty_leaves_output(_: &mut Notes, call: &Call, control: Control, lent: &mut Lent) -> Answer {
    let before = lent.output.clone();
    let answer = right(call, control, lent);
    if answered(call, &answer) {
        let units = lent.output.lent_mut().chunks_exact_mut(80);
        for (unit, old) in units.zip(before.lent().chunks_exact(80)) {
            if unit[0] == 0 {
                unit.copy_from_slice(old);
            }
        }
    }
    answer
}

fn waits_gives_applied(_: &mut Notes, call: &Call, control: Control, lent: &mut Lent) -> Answer {
    let mut answer = right(call, control, lent);
    if reads(call) && answer.kind == WAITS {
        answer.value = control.applied[rows::session_studio(call, &control) as usize - 1];
    }
    answer
}

fn waits_writes(_: &mut Notes, call: &Call, control: Control, lent: &mut Lent) -> Answer {
    let answer = right(call, control, lent);
    if reads(call) && answer.kind == WAITS {
        lent.output.lent_mut()[..80].fill(0);
    }
    answer
}

fn waits_too_long(_: &mut Notes, call: &Call, control: Control, lent: &mut Lent) -> Answer {
    let before = lent.clone();
    let answer = right(call, control, lent);
    let number = rows::session_number(&rows::stored(call, &before));
    if !answered(call, &answer) || number == 0 || number != answer.value {
        return answer;
    }
    lent.copy_from(&before);
    if let Call::Read { session, request, .. } = call {
        let unit = session_unit(lent, *session);
        unit[..2].copy_from_slice(&request[..2]);
        unit[16..].copy_from_slice(&request[16..]);
    }
    Answer { kind: WAITS, value: number, found: 0, control }
}

fn output_2560(_: &mut Notes, call: &Call, control: Control, lent: &mut Lent) -> Answer {
    let before = lent.clone();
    let answer = right(call, control, lent);
    if answered(call, &answer) && call.output() < 2_560 {
        lent.copy_from(&before);
        return refused(13, control);
    }
    answer
}

fn from_first_studio(_: &mut Notes, call: &Call, control: Control, lent: &mut Lent) -> Answer {
    let before = lent.clone();
    let answer = right(call, control, lent);
    if !answered(call, &answer) {
        return answer;
    }
    let mut moved = before;
    let first = moved.library.lent()[COPY..2 * COPY].to_vec();
    copy_of(&mut moved, rows::session_studio(call, &control)).copy_from_slice(&first);
    let answer = right(call, control, &mut moved);
    lent.output.copy_from(&moved.output);
    answer
}
