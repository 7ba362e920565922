//! Mistakes of refusal 8, by which a commit raises its session's number to commits (02's S-3).

use super::mistake::{Mistake, Notes, is_refused, mistake, order_mistake, right};
use crate::call::Call;
use crate::left::set_number;
use crate::lent::Lent;
use crate::rows;
use simulator::{Answer, Control, REFUSED};

pub const MISTAKES: &[Mistake] = &[
    order_mistake("refusal 8 raises no number", not_raised),
    order_mistake("refusal 8 raises the number to the studio's applied", to_applied),
    order_mistake("refusal 8 raises the number to the studio's sent", to_sent),
    order_mistake("refusal 8 raises the number by one", by_one),
    order_mistake("refusal 8 raises a number of 0 only", from_0),
    order_mistake("refusal 8 of several operations raises no number", of_one_operation),
    order_mistake("refusal 8 of a later operation raises no number", of_first_operation),
    order_mistake("refusal 8 of an empty cart raises no number", of_taken_carts),
    order_mistake("refusal 8 raises session 1's number", of_session_1),
    order_mistake("refusal 8 hands back a control with one commit more", one_commit_more),
    mistake("refusal 8 raises the number to commits + 1", to_next_commit),
    mistake("refusal 8 raises the number to the low byte of commits", low_byte),
    mistake("refusal 8 raises no number where the studio is level", where_behind),
    mistake("refusal 8 raises the numbers of all sessions of the studio", of_the_studio),
    mistake("every refusal of a commit raises the number", by_every_refusal),
    mistake("refusal 7 raises the number too", by_7),
    mistake("refusals 16 and 7 raise the number where row 8 holds too", where_8_holds),
    mistake("a preview refused by 8 raises the number", by_preview),
];

/// The session of a commit that was refused with 8.
fn told(call: &Call, answer: &Answer) -> Option<u32> {
    match call {
        Call::Commit { session, .. } if is_refused(answer, 8) => Some(*session),
        _ => None,
    }
}

/// Plays the call; after a commit refused with 8 the session's number is what `number` makes of the one before.
fn numbered(call: &Call, control: Control, lent: &mut Lent, number: fn(u32, &Call, &Control, &Lent) -> u32) -> Answer {
    let before = rows::session_number(&rows::stored(call, lent));
    let answer = right(call, control, lent);
    if let Some(session) = told(call, &answer) {
        let number = number(before, call, &control, lent);
        set_number(lent, session, number);
    }
    answer
}

fn not_raised(_: &mut Notes, call: &Call, control: Control, lent: &mut Lent) -> Answer {
    numbered(call, control, lent, |before, _, _, _| before)
}

/// Where the counts of the session's studio stand.
fn studio(call: &Call, control: &Control) -> usize {
    rows::session_studio(call, control) as usize - 1
}

fn to_applied(_: &mut Notes, call: &Call, control: Control, lent: &mut Lent) -> Answer {
    numbered(call, control, lent, |before, call, control, _| before.max(control.applied[studio(call, control)]))
}

fn to_sent(_: &mut Notes, call: &Call, control: Control, lent: &mut Lent) -> Answer {
    numbered(call, control, lent, |before, call, control, _| before.max(control.sent[studio(call, control)]))
}

fn by_one(_: &mut Notes, call: &Call, control: Control, lent: &mut Lent) -> Answer {
    numbered(call, control, lent, |before, _, control, _| control.commits.min(before + 1))
}

fn to_next_commit(_: &mut Notes, call: &Call, control: Control, lent: &mut Lent) -> Answer {
    numbered(call, control, lent, |_, _, control, _| control.commits + 1)
}

fn low_byte(_: &mut Notes, call: &Call, control: Control, lent: &mut Lent) -> Answer {
    numbered(call, control, lent, |_, _, control, _| control.commits % 256)
}

/// The number that a mistake leaves which raises it only sometimes.
fn raised_if(raises: bool, before: u32, control: &Control) -> u32 {
    if raises { control.commits } else { before }
}

fn from_0(_: &mut Notes, call: &Call, control: Control, lent: &mut Lent) -> Answer {
    numbered(call, control, lent, |before, _, control, _| raised_if(before == 0, before, control))
}

fn of_one_operation(_: &mut Notes, call: &Call, control: Control, lent: &mut Lent) -> Answer {
    numbered(call, control, lent, |before, call, control, _| raised_if(call.input().len() == 80, before, control))
}

/// The place of the operation that row 8 is about.
fn place_at_fault(call: &Call, lent: &Lent) -> usize {
    rows::first_at_fault(call.input(), &rows::head_end(lent)).expect("row 8 holds")
}

fn of_first_operation(_: &mut Notes, call: &Call, control: Control, lent: &mut Lent) -> Answer {
    numbered(call, control, lent, |before, call, control, lent| raised_if(place_at_fault(call, lent) == 0, before, control))
}

fn of_taken_carts(_: &mut Notes, call: &Call, control: Control, lent: &mut Lent) -> Answer {
    numbered(call, control, lent, |before, call, control, lent| {
        let kind = call.input()[80 * place_at_fault(call, lent)];
        raised_if(kind == 1, before, control)
    })
}

fn where_behind(_: &mut Notes, call: &Call, control: Control, lent: &mut Lent) -> Answer {
    numbered(call, control, lent, |before, call, control, _| {
        let behind = control.applied[studio(call, control)] < control.commits;
        raised_if(behind, before, control)
    })
}

fn of_session_1(notes: &mut Notes, call: &Call, control: Control, lent: &mut Lent) -> Answer {
    let answer = not_raised(notes, call, control, lent);
    if told(call, &answer).is_some() {
        set_number(lent, 1, control.commits);
    }
    answer
}

fn of_the_studio(_: &mut Notes, call: &Call, control: Control, lent: &mut Lent) -> Answer {
    let answer = right(call, control, lent);
    if told(call, &answer).is_some() {
        let studio = rows::session_studio(call, &control);
        for (session, _) in (1..).zip(control.session_studios).filter(|(_, other)| *other == studio) {
            set_number(lent, session, control.commits);
        }
    }
    answer
}

fn one_commit_more(_: &mut Notes, call: &Call, control: Control, lent: &mut Lent) -> Answer {
    let mut answer = right(call, control, lent);
    if told(call, &answer).is_some() {
        answer.control.commits += 1;
    }
    answer
}

/// Plays the call; a commit or preview refused by a row after 3 raises the session's number if `raises` says so, too.
fn raised_too(call: &Call, control: Control, lent: &mut Lent, raises: fn(&Call, u32, &Lent) -> bool) -> Answer {
    let answer = right(call, control, lent);
    if let Call::Commit { session, .. } | Call::Preview { session, .. } = call
        && answer.kind == REFUSED
        && answer.value > 3
        && raises(call, answer.value, lent)
    {
        set_number(lent, *session, control.commits);
    }
    answer
}

fn by_every_refusal(_: &mut Notes, call: &Call, control: Control, lent: &mut Lent) -> Answer {
    raised_too(call, control, lent, |call, _, _| matches!(call, Call::Commit { .. }))
}

fn by_7(_: &mut Notes, call: &Call, control: Control, lent: &mut Lent) -> Answer {
    raised_too(call, control, lent, |call, number, _| matches!(call, Call::Commit { .. }) && number == 7)
}

fn where_8_holds(_: &mut Notes, call: &Call, control: Control, lent: &mut Lent) -> Answer {
    raised_too(call, control, lent, |call, number, lent| {
        matches!(call, Call::Commit { .. }) && matches!(number, 16 | 7) && rows::wrong_state_met(call.input(), lent)
    })
}

fn by_preview(_: &mut Notes, call: &Call, control: Control, lent: &mut Lent) -> Answer {
    raised_too(call, control, lent, |call, number, _| matches!(call, Call::Preview { .. }) && number == 8)
}
