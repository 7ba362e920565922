//! Mistakes of move (02's S-7).

use super::mistake::{Mistake, Notes, clear_waiting, copy_mistake, is_refused, mistake, refused, right, session_unit, walk_mistake};
use crate::call::Call;
use crate::left::{self, set_number};
use crate::lent::Lent;
use crate::rows;
use simulator::{Answer, Control, DONE};

pub const MISTAKES: &[Mistake] = &[
    walk_mistake("move resets the session's number", resets_number),
    walk_mistake("move lowers the session's number to what the new studio has applied", lowers_number),
    copy_mistake("move counts the new studio as caught up", counts_caught_up),
    mistake("move raises the session's number to what the new studio has applied", raised_by_new),
    mistake("move raises the session's number to what the old studio has applied", raised_by_old),
    mistake("move writes the studio into the session's bytes", writes_studio),
    mistake("move accepted while a read waits", no_row_4),
    mistake("move accepted while a read waits that its studio has reached", row_4_behind),
    mistake("move accepted while a read waits, to the session's own studio", row_4_away),
    mistake("move accepted while a read waits, and the read is dropped", drops_read),
    mistake("move refused by 4 takes the waiting read away", clears_read),
    mistake("move refused by 4 changes control all the same", moves_though_refused),
    mistake("move to a studio that is behind is refused", behind_refused),
    mistake("move to the session's own studio is refused", own_refused),
    mistake("move: rows 3 and 4 exchanged", rows_3_4),
    mistake("move: row 3 before row 1", row_3_before_1),
    mistake("move: row 3 before row 2", row_3_before_2),
    mistake("move accepts studio S + 1", above_s),
    mistake("move accepts every studio up to 4", up_to_4),
    mistake("move accepts studio 0", to_0),
    mistake("move accepts an unused session", of_unused),
    mistake("move takes the low byte of its session", low_session),
    mistake("move takes the low byte of its studio", low_studio),
    mistake("move returns the studio that was left", returns_old),
    mistake("move returns the session", returns_session),
    mistake("move returns what the studio has applied", returns_applied),
    mistake("move leaves control as it was", leaves_control),
    mistake("move moves all sessions of the studio", moves_all),
    mistake("move moves the session after", moves_next),
    mistake("the first read after a move goes by the studio that was left", reads_at_old),
];

/// An accepted move: its session, the studio that it left, and the new one.
struct Moved {
    session: u32,
    old: u32,
    new: u32,
}

impl Moved {
    fn number(&self, lent: &mut Lent) -> u32 {
        rows::session_number(session_unit(lent, self.session))
    }
}

fn applied(studio: u32, control: &Control) -> u32 {
    control.applied[studio as usize - 1]
}

type Change = fn(&Moved, &Control, &mut Lent, &mut Answer);

/// Plays the call; after an accepted move `change` makes the mistake.
fn changed(call: &Call, control: Control, lent: &mut Lent, change: Change) -> Answer {
    let mut answer = right(call, control, lent);
    if let (Call::Move { session, studio }, DONE) = (call, answer.kind) {
        let moved = Moved { session: *session, old: rows::session_studio(call, &control), new: *studio };
        change(&moved, &control, lent, &mut answer);
    }
    answer
}

fn resets_number(_: &mut Notes, call: &Call, control: Control, lent: &mut Lent) -> Answer {
    changed(call, control, lent, |moved, _, lent, _| set_number(lent, moved.session, 0))
}

fn lowers_number(_: &mut Notes, call: &Call, control: Control, lent: &mut Lent) -> Answer {
    changed(call, control, lent, |moved, control, lent, _| {
        let number = moved.number(lent);
        set_number(lent, moved.session, number.min(applied(moved.new, control)));
    })
}

fn counts_caught_up(_: &mut Notes, call: &Call, control: Control, lent: &mut Lent) -> Answer {
    changed(call, control, lent, |moved, _, lent, answer| {
        let (number, place) = (moved.number(lent), moved.new as usize - 1);
        for count in [&mut answer.control.applied[place], &mut answer.control.sent[place]] {
            *count = number.max(*count);
        }
    })
}

fn raised_by_new(_: &mut Notes, call: &Call, control: Control, lent: &mut Lent) -> Answer {
    changed(call, control, lent, |moved, control, lent, _| {
        let number = moved.number(lent);
        set_number(lent, moved.session, number.max(applied(moved.new, control)));
    })
}

fn raised_by_old(_: &mut Notes, call: &Call, control: Control, lent: &mut Lent) -> Answer {
    changed(call, control, lent, |moved, control, lent, _| {
        let number = moved.number(lent);
        set_number(lent, moved.session, number.max(applied(moved.old, control)));
    })
}

fn writes_studio(_: &mut Notes, call: &Call, control: Control, lent: &mut Lent) -> Answer {
    changed(call, control, lent, |moved, _, lent, _| session_unit(lent, moved.session)[4] = moved.new as u8)
}

/// Plays the call; a move refused by this number is accepted where `accepts` says so.
fn accepted(number: u32, call: &Call, control: Control, lent: &mut Lent, accepts: fn(&Moved, &Control, &mut Lent) -> bool) -> Answer {
    let answer = right(call, control, lent);
    let Call::Move { session, studio } = *call else { return answer };
    let moved = Moved { session, old: rows::session_studio(call, &control), new: studio };
    let accepts = is_refused(&answer, number) && (1..=16).contains(&session) && accepts(&moved, &control, lent);
    if accepts { left::by_move(session, studio, control) } else { answer }
}

fn no_row_4(_: &mut Notes, call: &Call, control: Control, lent: &mut Lent) -> Answer {
    accepted(4, call, control, lent, |_, _, _| true)
}

fn row_4_behind(_: &mut Notes, call: &Call, control: Control, lent: &mut Lent) -> Answer {
    accepted(4, call, control, lent, |moved, control, lent| moved.number(lent) <= applied(moved.old, control))
}

fn row_4_away(_: &mut Notes, call: &Call, control: Control, lent: &mut Lent) -> Answer {
    accepted(4, call, control, lent, |moved, _, _| moved.new == moved.old)
}

fn drops_read(_: &mut Notes, call: &Call, control: Control, lent: &mut Lent) -> Answer {
    accepted(4, call, control, lent, |moved, _, lent| {
        clear_waiting(lent, moved.session);
        true
    })
}

fn above_s(_: &mut Notes, call: &Call, control: Control, lent: &mut Lent) -> Answer {
    accepted(3, call, control, lent, |moved, control, _| moved.old != 0 && moved.new == control.studios + 1)
}

fn up_to_4(_: &mut Notes, call: &Call, control: Control, lent: &mut Lent) -> Answer {
    accepted(3, call, control, lent, |moved, _, _| moved.old != 0 && (1..=4).contains(&moved.new))
}

fn to_0(_: &mut Notes, call: &Call, control: Control, lent: &mut Lent) -> Answer {
    accepted(3, call, control, lent, |moved, _, _| moved.old != 0 && moved.new == 0)
}

fn of_unused(_: &mut Notes, call: &Call, control: Control, lent: &mut Lent) -> Answer {
    accepted(3, call, control, lent, |moved, control, _| moved.old == 0 && !rows::unknown_studio(moved.new, control))
}

fn clears_read(_: &mut Notes, call: &Call, control: Control, lent: &mut Lent) -> Answer {
    let answer = right(call, control, lent);
    if let (Call::Move { session, .. }, true) = (call, is_refused(&answer, 4)) {
        clear_waiting(lent, *session);
    }
    answer
}

fn moves_though_refused(_: &mut Notes, call: &Call, control: Control, lent: &mut Lent) -> Answer {
    let mut answer = right(call, control, lent);
    if let (Call::Move { session, studio }, true) = (call, is_refused(&answer, 4)) {
        answer.control = left::by_move(*session, *studio, control).control;
    }
    answer
}

fn behind_refused(_: &mut Notes, call: &Call, control: Control, lent: &mut Lent) -> Answer {
    changed(call, control, lent, |moved, control, lent, answer| {
        if applied(moved.new, control) < moved.number(lent) {
            *answer = refused(4, *control);
        }
    })
}

fn own_refused(_: &mut Notes, call: &Call, control: Control, lent: &mut Lent) -> Answer {
    changed(call, control, lent, |moved, control, _, answer| {
        if moved.new == moved.old {
            *answer = refused(3, *control);
        }
    })
}

/// Where this row stops a move and the other holds too, the other in its place.
fn exchanged(row: u32, other: u32, call: &Call, control: Control, lent: &mut Lent) -> Answer {
    let answer = right(call, control, lent);
    let holds = matches!(call, Call::Move { .. }) && is_refused(&answer, row) && rows::holding(call, &control, lent).contains(&other);
    if holds { refused(other, control) } else { answer }
}

fn rows_3_4(_: &mut Notes, call: &Call, control: Control, lent: &mut Lent) -> Answer {
    exchanged(3, 4, call, control, lent)
}

fn row_3_before_1(_: &mut Notes, call: &Call, control: Control, lent: &mut Lent) -> Answer {
    exchanged(1, 3, call, control, lent)
}

fn row_3_before_2(_: &mut Notes, call: &Call, control: Control, lent: &mut Lent) -> Answer {
    exchanged(2, 3, call, control, lent)
}

/// Plays a move with other arguments.
fn with_arguments(call: &Call, control: Control, lent: &mut Lent, other: fn(u32, u32) -> (u32, u32)) -> Answer {
    match *call {
        Call::Move { session, studio } => {
            let (session, studio) = other(session, studio);
            right(&Call::Move { session, studio }, control, lent)
        }
        _ => right(call, control, lent),
    }
}

fn low_session(_: &mut Notes, call: &Call, control: Control, lent: &mut Lent) -> Answer {
    with_arguments(call, control, lent, |session, studio| (session % 256, studio))
}

fn low_studio(_: &mut Notes, call: &Call, control: Control, lent: &mut Lent) -> Answer {
    with_arguments(call, control, lent, |session, studio| (session, studio % 256))
}

fn returns_old(_: &mut Notes, call: &Call, control: Control, lent: &mut Lent) -> Answer {
    changed(call, control, lent, |moved, _, _, answer| answer.value = moved.old)
}

fn returns_session(_: &mut Notes, call: &Call, control: Control, lent: &mut Lent) -> Answer {
    changed(call, control, lent, |moved, _, _, answer| answer.value = moved.session)
}

fn returns_applied(_: &mut Notes, call: &Call, control: Control, lent: &mut Lent) -> Answer {
    changed(call, control, lent, |moved, control, _, answer| answer.value = applied(moved.new, control))
}

fn leaves_control(_: &mut Notes, call: &Call, control: Control, lent: &mut Lent) -> Answer {
    changed(call, control, lent, |_, control, _, answer| answer.control = *control)
}

fn moves_all(_: &mut Notes, call: &Call, control: Control, lent: &mut Lent) -> Answer {
    changed(call, control, lent, |moved, _, _, answer| {
        answer.control.session_studios.iter_mut().filter(|studio| **studio == moved.old).for_each(|studio| *studio = moved.new);
    })
}

fn moves_next(_: &mut Notes, call: &Call, control: Control, lent: &mut Lent) -> Answer {
    changed(call, control, lent, |moved, control, _, answer| {
        answer.control = *control;
        answer.control.session_studios[moved.session as usize % 16] = moved.new;
    })
}

fn reads_at_old(notes: &mut Notes, call: &Call, control: Control, lent: &mut Lent) -> Answer {
    let place = rows::place(call);
    let old = if rows::reads(call) { notes.left.remove(&place) } else { None };
    let mut passed = control;
    if let Some(old) = old {
        passed.session_studios[place - 1] = old;
    }
    let mut answer = right(call, passed, lent);
    match call {
        Call::Move { .. } if answer.kind == DONE => {
            notes.left.insert(place, rows::session_studio(call, &control));
        }
        _ if old.is_some() => answer.control = control,
        _ => {}
    }
    answer
}
