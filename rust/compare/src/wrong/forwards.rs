//! Mistakes of forward (02's S-4).

use super::mistake::{Mistake, Notes, clear_waiting, copy_of, is_refused, mistake, order_mistake, refused, right, session_unit};
use crate::call::Call;
use crate::left::set_number;
use crate::lent::Lent;
use crate::made::Log;
use crate::rows;
use crate::single;
use simulator::{ANSWERED, Answer, Control};

pub const MISTAKES: &[Mistake] = &[
    order_mistake("forward: the head end's carts with state applied", state_applied),
    order_mistake("forward: the head end's carts with the session's number as state", state_number),
    order_mistake("forward: the studio's carts with state commits", studios_carts),
    order_mistake("forward: the head end's cart by title with the studio's found", studios_found),
    order_mistake("forward by the head end raises no number", not_raised),
    order_mistake("forward by the head end raises the number to the studio's sent", raised_to_sent),
    order_mistake("forward by the head end raises the number by one", raised_by_one),
    order_mistake("forward by the head end raises session 1's number", raises_session_1),
    order_mistake("forward answered by a studio that is one behind", one_behind),
    order_mistake("forward answered by the studio where enough was sent", by_sent),
    mistake("forward always answered by the head end", always_head_end),
    mistake("forward answered by the head end where the studio is behind it", behind_head_end),
    mistake("forward answered by the head end where applied is the number", where_level),
    mistake("forward by the studio raises the number to commits", raised_by_studio),
    mistake("forward by the head end raises the number to the state + 1", raised_past_state),
    mistake("forward by the head end raises the number to the low byte of commits", low_byte),
    mistake("forward by the head end raises the numbers of all sessions of the studio", raised_for_the_studio),
    mistake("forward by the head end keeps its request", keeps_request),
    mistake("forward by the studio keeps its request", studio_keeps_request),
    mistake("forward waits as read does", waits),
    mistake("forward by the head end refreshes the studio's copy", refreshes_copy),
    mistake("forward by the head end counts the studio as caught up", counts_caught_up),
    mistake("forward by the head end is a commit more", one_commit_more),
    mistake("forward by the head end shows what the log makes", from_log),
    mistake("forward by the head end clears the later bytes of output", clears_output),
    mistake("forward leaves out row 4", no_row_4),
    mistake("forward refused by 4 takes the waiting read away", clears_read),
    mistake("forward refused by 4 raises the number", raised_by_4),
    mistake("forward refused by 13 raises the number", raised_by_13),
    mistake("forward takes the low byte of its session", low_session),
    mistake("forward: rows 4 and 12 exchanged", rows_4_12),
    mistake("forward: rows 12 and 13 exchanged", rows_12_13),
    mistake("forward by the head end leaves out row 13", no_row_13),
];

/// An answered forward: its session, its request, and whether the head end answered.
struct Forwarded<'a> {
    session: u32,
    request: &'a [u8],
    studio: u32,
    by_head_end: bool,
    /// The session's number before it.
    number: u32,
}

fn forwarded<'a>(call: &'a Call, control: &Control, number: u32, answer: &Answer) -> Option<Forwarded<'a>> {
    let Call::Forward { session, request, .. } = call else { return None };
    let (studio, by_head_end) = (rows::session_studio(call, control), rows::by_head_end(call, number, answer));
    (answer.kind == ANSWERED).then_some(Forwarded { session: *session, request, studio, by_head_end, number })
}

type Change = fn(&Forwarded<'_>, &Control, &mut Lent, &mut Answer);

/// Plays the call; after an answered forward `change` makes the mistake.
fn changed(call: &Call, control: Control, lent: &mut Lent, change: Change) -> Answer {
    changed_where(|_| true, call, control, lent, change)
}

fn changed_where(holds: fn(&Forwarded<'_>) -> bool, call: &Call, control: Control, lent: &mut Lent, change: Change) -> Answer {
    let number = rows::session_number(&rows::stored(call, lent));
    let mut answer = right(call, control, lent);
    if let Some(forward) = forwarded(call, &control, number, &answer).filter(holds) {
        change(&forward, &control, lent, &mut answer);
    }
    answer
}

/// The same, only where the head end answered.
fn changed_by_head_end(call: &Call, control: Control, lent: &mut Lent, change: Change) -> Answer {
    changed_where(|forward| forward.by_head_end, call, control, lent, change)
}

/// Carts and found anew.
fn show((found, carts): (u32, Vec<u8>), lent: &mut Lent, answer: &mut Answer) {
    lent.output.lent_mut()[..carts.len()].copy_from_slice(&carts);
    answer.found = found;
}

/// Carts and found anew from the copy of a studio, or of the head end for 0.
fn show_from(studio: u32, forward: &Forwarded<'_>, lent: &mut Lent, answer: &mut Answer) {
    show(single::read(copy_of(lent, studio), forward.request), lent, answer);
}

/// Answers anew as the head end does.
fn by_head_end(forward: &Forwarded<'_>, control: &Control, lent: &mut Lent, answer: &mut Answer) {
    show_from(0, forward, lent, answer);
    answer.value = control.commits;
    set_number(lent, forward.session, control.commits);
}

/// Answers anew as the studio does.
fn by_studio(forward: &Forwarded<'_>, control: &Control, lent: &mut Lent, answer: &mut Answer) {
    show_from(forward.studio, forward, lent, answer);
    answer.value = applied(forward, control);
    set_number(lent, forward.session, forward.number);
}

fn applied(forward: &Forwarded<'_>, control: &Control) -> u32 {
    control.applied[forward.studio as usize - 1]
}

fn sent(forward: &Forwarded<'_>, control: &Control) -> u32 {
    control.sent[forward.studio as usize - 1]
}

fn state_applied(_: &mut Notes, call: &Call, control: Control, lent: &mut Lent) -> Answer {
    changed(call, control, lent, |forward, control, _, answer| answer.value = applied(forward, control))
}

fn state_number(_: &mut Notes, call: &Call, control: Control, lent: &mut Lent) -> Answer {
    changed_by_head_end(call, control, lent, |forward, _, _, answer| answer.value = forward.number)
}

fn studios_carts(_: &mut Notes, call: &Call, control: Control, lent: &mut Lent) -> Answer {
    changed(call, control, lent, |forward, _, lent, answer| show_from(forward.studio, forward, lent, answer))
}

fn studios_found(_: &mut Notes, call: &Call, control: Control, lent: &mut Lent) -> Answer {
    changed(call, control, lent, |forward, _, lent, answer| {
        if forward.request[0] == 2 {
            answer.found = single::read(copy_of(lent, forward.studio), forward.request).0;
        }
    })
}

fn not_raised(_: &mut Notes, call: &Call, control: Control, lent: &mut Lent) -> Answer {
    changed_by_head_end(call, control, lent, |forward, _, lent, _| set_number(lent, forward.session, forward.number))
}

fn raised_to_sent(_: &mut Notes, call: &Call, control: Control, lent: &mut Lent) -> Answer {
    changed_by_head_end(call, control, lent, |forward, control, lent, _| {
        set_number(lent, forward.session, forward.number.max(sent(forward, control)));
    })
}

fn raised_by_one(_: &mut Notes, call: &Call, control: Control, lent: &mut Lent) -> Answer {
    changed_by_head_end(call, control, lent, |forward, control, lent, _| {
        set_number(lent, forward.session, control.commits.min(forward.number + 1));
    })
}

fn raises_session_1(_: &mut Notes, call: &Call, control: Control, lent: &mut Lent) -> Answer {
    changed_by_head_end(call, control, lent, |forward, control, lent, _| {
        set_number(lent, forward.session, forward.number);
        set_number(lent, 1, control.commits);
    })
}

fn one_behind(_: &mut Notes, call: &Call, control: Control, lent: &mut Lent) -> Answer {
    changed_by_head_end(call, control, lent, |forward, control, lent, answer| {
        if applied(forward, control) + 1 == forward.number {
            by_studio(forward, control, lent, answer);
        }
    })
}

fn by_sent(_: &mut Notes, call: &Call, control: Control, lent: &mut Lent) -> Answer {
    changed_by_head_end(call, control, lent, |forward, control, lent, answer| {
        if sent(forward, control) >= forward.number {
            by_studio(forward, control, lent, answer);
        }
    })
}

fn always_head_end(_: &mut Notes, call: &Call, control: Control, lent: &mut Lent) -> Answer {
    changed(call, control, lent, by_head_end)
}

fn behind_head_end(_: &mut Notes, call: &Call, control: Control, lent: &mut Lent) -> Answer {
    changed(call, control, lent, |forward, control, lent, answer| {
        if applied(forward, control) < control.commits {
            by_head_end(forward, control, lent, answer);
        }
    })
}

fn where_level(_: &mut Notes, call: &Call, control: Control, lent: &mut Lent) -> Answer {
    changed(call, control, lent, |forward, control, lent, answer| {
        if applied(forward, control) == forward.number {
            by_head_end(forward, control, lent, answer);
        }
    })
}

fn raised_by_studio(_: &mut Notes, call: &Call, control: Control, lent: &mut Lent) -> Answer {
    changed(call, control, lent, |forward, control, lent, _| set_number(lent, forward.session, control.commits))
}

fn raised_past_state(_: &mut Notes, call: &Call, control: Control, lent: &mut Lent) -> Answer {
    changed_by_head_end(call, control, lent, |forward, _, lent, answer| set_number(lent, forward.session, answer.value + 1))
}

fn low_byte(_: &mut Notes, call: &Call, control: Control, lent: &mut Lent) -> Answer {
    changed_by_head_end(call, control, lent, |forward, control, lent, _| set_number(lent, forward.session, control.commits % 256))
}

fn raised_for_the_studio(_: &mut Notes, call: &Call, control: Control, lent: &mut Lent) -> Answer {
    changed_by_head_end(call, control, lent, |forward, control, lent, _| {
        for (session, _) in (1..).zip(control.session_studios).filter(|(_, studio)| *studio == forward.studio) {
            set_number(lent, session, control.commits);
        }
    })
}

/// Leaves the request in the session, as a read that waits does.
fn keep_request(forward: &Forwarded<'_>, lent: &mut Lent) {
    let unit = session_unit(lent, forward.session);
    unit[..2].copy_from_slice(&forward.request[..2]);
    unit[16..].copy_from_slice(&forward.request[16..]);
}

fn keeps_request(_: &mut Notes, call: &Call, control: Control, lent: &mut Lent) -> Answer {
    changed_by_head_end(call, control, lent, |forward, _, lent, _| keep_request(forward, lent))
}

fn studio_keeps_request(_: &mut Notes, call: &Call, control: Control, lent: &mut Lent) -> Answer {
    changed_where(|forward| !forward.by_head_end, call, control, lent, |forward, _, lent, _| keep_request(forward, lent))
}

fn waits(_: &mut Notes, call: &Call, control: Control, lent: &mut Lent) -> Answer {
    match call {
        Call::Forward { session, request, output } => {
            let read = Call::Read { session: *session, request: request.clone(), output: *output };
            right(&read, control, lent)
        }
        _ => right(call, control, lent),
    }
}

fn refreshes_copy(_: &mut Notes, call: &Call, control: Control, lent: &mut Lent) -> Answer {
    changed_by_head_end(call, control, lent, |forward, _, lent, _| {
        let head_end = copy_of(lent, 0).to_vec();
        copy_of(lent, forward.studio).copy_from_slice(&head_end);
    })
}

fn counts_caught_up(_: &mut Notes, call: &Call, control: Control, lent: &mut Lent) -> Answer {
    changed_by_head_end(call, control, lent, |forward, control, _, answer| {
        let place = forward.studio as usize - 1;
        (answer.control.sent[place], answer.control.applied[place]) = (control.commits, control.commits);
    })
}

fn one_commit_more(_: &mut Notes, call: &Call, control: Control, lent: &mut Lent) -> Answer {
    changed_by_head_end(call, control, lent, |_, _, _, answer| answer.control.commits += 1)
}

fn from_log(_: &mut Notes, call: &Call, control: Control, lent: &mut Lent) -> Answer {
    changed_by_head_end(call, control, lent, |forward, control, lent, answer| {
        show(single::read(&Log::new(control, lent).library(control.commits), forward.request), lent, answer);
    })
}

fn clears_output(_: &mut Notes, call: &Call, control: Control, lent: &mut Lent) -> Answer {
    changed_by_head_end(call, control, lent, |forward, _, lent, _| {
        lent.output.lent_mut()[rows::output_asked(forward.request)..].fill(0);
    })
}

/// The session of a forward that was refused with 4.
fn stopped_by_4(call: &Call, answer: &Answer) -> Option<u32> {
    match call {
        Call::Forward { session, .. } if is_refused(answer, 4) => Some(*session),
        _ => None,
    }
}

fn no_row_4(_: &mut Notes, call: &Call, control: Control, lent: &mut Lent) -> Answer {
    let answer = right(call, control, lent);
    let Some(session) = stopped_by_4(call, &answer) else { return answer };
    let mut collected = lent.clone();
    clear_waiting(&mut collected, session);
    let answer = right(call, control, &mut collected);
    lent.output.copy_from(&collected.output);
    let number = rows::session_number(&rows::stored(call, &collected));
    set_number(lent, session, number);
    answer
}

fn clears_read(_: &mut Notes, call: &Call, control: Control, lent: &mut Lent) -> Answer {
    let answer = right(call, control, lent);
    if let Some(session) = stopped_by_4(call, &answer) {
        clear_waiting(lent, session);
    }
    answer
}

/// Plays the call; a forward refused with this number raises the session's.
fn raised_by(refusal: u32, call: &Call, control: Control, lent: &mut Lent) -> Answer {
    let answer = right(call, control, lent);
    if let Call::Forward { session, .. } = call
        && is_refused(&answer, refusal)
    {
        set_number(lent, *session, control.commits);
    }
    answer
}

fn raised_by_4(_: &mut Notes, call: &Call, control: Control, lent: &mut Lent) -> Answer {
    raised_by(4, call, control, lent)
}

fn raised_by_13(_: &mut Notes, call: &Call, control: Control, lent: &mut Lent) -> Answer {
    raised_by(13, call, control, lent)
}

fn low_session(_: &mut Notes, call: &Call, control: Control, lent: &mut Lent) -> Answer {
    match call {
        Call::Forward { session, request, output } => {
            let low = Call::Forward { session: session % 256, request: request.clone(), output: *output };
            right(&low, control, lent)
        }
        _ => right(call, control, lent),
    }
}

fn rows_4_12(_: &mut Notes, call: &Call, control: Control, lent: &mut Lent) -> Answer {
    let answer = right(call, control, lent);
    match stopped_by_4(call, &answer) {
        Some(_) if !simulator::request_in_form(call.input()) => refused(12, control),
        _ => answer,
    }
}

fn rows_12_13(_: &mut Notes, call: &Call, control: Control, lent: &mut Lent) -> Answer {
    let answer = right(call, control, lent);
    let exchanged = matches!(call, Call::Forward { .. }) && is_refused(&answer, 12) && call.output() < rows::output_asked(call.input());
    if exchanged { refused(13, control) } else { answer }
}

/// Where a read would have waited, the carts that fit output are written.
fn no_row_13(_: &mut Notes, call: &Call, control: Control, lent: &mut Lent) -> Answer {
    let answer = right(call, control, lent);
    if !matches!(call, Call::Forward { .. }) || !is_refused(&answer, 13) {
        return answer;
    }
    let number = rows::session_number(&rows::stored(call, lent));
    let mut roomy = lent.clone();
    roomy.output.set(&[0; 2_560]);
    let second = right(call, control, &mut roomy);
    if !rows::by_head_end(call, number, &second) {
        return answer;
    }
    let room = lent.output.len();
    lent.output.lent_mut().copy_from_slice(&roomy.output.lent()[..room]);
    lent.sessions.copy_from(&roomy.sessions);
    second
}
