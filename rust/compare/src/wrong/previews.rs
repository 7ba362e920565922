//! Mistakes of preview.

use super::mistake::{Mistake, Notes, clear_waiting, copy_mistake, copy_of, is_refused, mistake, order_mistake, refused, right};
use crate::call::Call;
use crate::lent::Lent;
use crate::rows;
use crate::single;
use simulator::{Answer, COPY, Control, DONE};

pub const MISTAKES: &[Mistake] = &[
    order_mistake("preview commits", commits),
    copy_mistake("preview leaves its carts at the head end", leaves_carts),
    mistake("preview leaves its records in the log", leaves_records),
    mistake("preview raises the session's number", raises_number),
    mistake("preview hands back control as commit would", hands_back_commits_control),
    mistake("preview answers commits, not the number after", number_before),
    mistake("preview leaves out row 4", no_row_4),
    mistake("preview leaves out row 7", no_row_7),
    mistake("preview leaves out row 8", no_row_8),
    mistake("preview tests carts before any operation acts", carts_tested_at_once),
    mistake("preview tests the carts of the session's studio", studio_tested),
];

fn is_preview(call: &Call) -> bool {
    matches!(call, Call::Preview { .. })
}

/// Whether a preview came as far as the carts: no row before 8 stopped it.
fn carts_tested(call: &Call, answer: &Answer) -> bool {
    is_preview(call) && (answer.kind == DONE || is_refused(answer, 8))
}

/// The answer of an accepted preview.
fn number(value: u32, control: Control) -> Answer {
    Answer { kind: DONE, value, found: 0, control }
}

/// Plays the call; after an accepted preview `keep` takes over something of what its commit leaves.
fn keeping(call: &Call, control: Control, lent: &mut Lent, keep: fn(&mut Lent, &mut Answer, Lent, Answer)) -> Answer {
    let mut answer = right(call, control, lent);
    if let Some(commit) = call.previewed()
        && answer.kind == DONE
    {
        let mut left = lent.clone();
        let committed = right(&commit, control, &mut left);
        keep(lent, &mut answer, left, committed);
    }
    answer
}

fn commits(_: &mut Notes, call: &Call, control: Control, lent: &mut Lent) -> Answer {
    keeping(call, control, lent, |lent, answer, left, committed| {
        *lent = left;
        *answer = committed;
    })
}

fn leaves_carts(_: &mut Notes, call: &Call, control: Control, lent: &mut Lent) -> Answer {
    keeping(call, control, lent, |lent, _, left, _| lent.library = left.library)
}

fn leaves_records(_: &mut Notes, call: &Call, control: Control, lent: &mut Lent) -> Answer {
    keeping(call, control, lent, |lent, _, left, _| lent.log = left.log)
}

fn raises_number(_: &mut Notes, call: &Call, control: Control, lent: &mut Lent) -> Answer {
    keeping(call, control, lent, |lent, _, left, _| lent.sessions = left.sessions)
}

fn hands_back_commits_control(_: &mut Notes, call: &Call, control: Control, lent: &mut Lent) -> Answer {
    keeping(call, control, lent, |_, answer, _, committed| answer.control = committed.control)
}

fn number_before(_: &mut Notes, call: &Call, control: Control, lent: &mut Lent) -> Answer {
    keeping(call, control, lent, |_, answer, _, _| answer.value -= 1)
}

fn no_row_4(_: &mut Notes, call: &Call, control: Control, lent: &mut Lent) -> Answer {
    let answer = right(call, control, lent);
    match call {
        Call::Preview { session, .. } if is_refused(&answer, 4) => {
            let mut collected = lent.clone();
            clear_waiting(&mut collected, *session);
            right(call, control, &mut collected)
        }
        _ => answer,
    }
}

fn no_row_7(_: &mut Notes, call: &Call, control: Control, lent: &mut Lent) -> Answer {
    let answer = right(call, control, lent);
    match is_preview(call) && is_refused(&answer, 7) {
        true if rows::wrong_state_met(call.input(), lent) => refused(8, control),
        true => number(control.commits + 1, control),
        false => answer,
    }
}

fn no_row_8(_: &mut Notes, call: &Call, control: Control, lent: &mut Lent) -> Answer {
    let answer = right(call, control, lent);
    match is_preview(call) && is_refused(&answer, 8) {
        true => number(control.commits + 1, control),
        false => answer,
    }
}

fn carts_tested_at_once(_: &mut Notes, call: &Call, control: Control, lent: &mut Lent) -> Answer {
    let answer = right(call, control, lent);
    let meets = |unit: &[u8]| single::meets(&lent.library.lent()[..COPY], unit);
    match carts_tested(call, &answer) {
        true if call.input().chunks_exact(80).all(meets) => number(control.commits + 1, control),
        true => refused(8, control),
        false => answer,
    }
}

fn studio_tested(_: &mut Notes, call: &Call, control: Control, lent: &mut Lent) -> Answer {
    let answer = right(call, control, lent);
    if !carts_tested(call, &answer) {
        return answer;
    }
    let mut moved = lent.clone();
    let copy = copy_of(&mut moved, rows::session_studio(call, &control)).to_vec();
    copy_of(&mut moved, 0).copy_from_slice(&copy);
    right(call, control, &mut moved)
}
