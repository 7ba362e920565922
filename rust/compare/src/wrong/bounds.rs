//! Writes outside of what a call may write, and words that should be zero.

use super::mistake::{Mistake, Notes, is_refused, mistake, right};
use crate::call::Call;
use crate::lent::Lent;
use simulator::{ANSWERED, Answer, Control, DONE, REFUSED};

pub const MISTAKES: &[Mistake] = &[
    mistake("a byte written past output", past_output),
    mistake("a byte written before library", before_library),
    mistake("a byte written past the log", past_log),
    mistake("a byte written past the sessions", past_sessions),
    mistake("a byte written past the request", past_request),
    mistake("the request is changed", request_changed),
    mistake("the operations are linked where they were handed in", operations_changed),
    mistake("the studio bytes are cleared", studio_bytes_changed),
    mistake("a refused call changes control", refused_changes_control),
    mistake("refused 2 hands back a zero control", refused_zero_control),
    mistake("found left over in a done answer", found_left_over),
];

fn past_output(_: &mut Notes, call: &Call, control: Control, lent: &mut Lent) -> Answer {
    let answer = right(call, control, lent);
    if answer.kind == ANSWERED {
        lent.output.trespass(lent.output.len() as isize, 0);
    }
    answer
}

fn before_library(_: &mut Notes, call: &Call, control: Control, lent: &mut Lent) -> Answer {
    let answer = right(call, control, lent);
    if matches!(call, Call::Refresh { .. }) && answer.kind == DONE {
        lent.library.trespass(-1, 0);
    }
    answer
}

fn past_log(_: &mut Notes, call: &Call, control: Control, lent: &mut Lent) -> Answer {
    let answer = right(call, control, lent);
    if answer.kind == DONE && answer.control.used == 512 {
        lent.log.trespass(lent.log.len() as isize, 0);
    }
    answer
}

fn past_sessions(_: &mut Notes, call: &Call, control: Control, lent: &mut Lent) -> Answer {
    let answer = right(call, control, lent);
    if matches!(call, Call::Commit { session: 17, .. }) {
        lent.sessions.trespass(lent.sessions.len() as isize, 0);
    }
    answer
}

fn past_request(_: &mut Notes, call: &Call, control: Control, lent: &mut Lent) -> Answer {
    let answer = right(call, control, lent);
    if matches!(call, Call::Read { .. }) && is_refused(&answer, 12) {
        lent.input.trespass(lent.input.len() as isize, 0);
    }
    answer
}

fn request_changed(_: &mut Notes, call: &Call, control: Control, lent: &mut Lent) -> Answer {
    let answer = right(call, control, lent);
    if matches!(call, Call::Read { .. }) && answer.kind != REFUSED {
        lent.input.lent_mut()[0] = 0;
    }
    answer
}

fn operations_changed(_: &mut Notes, call: &Call, control: Control, lent: &mut Lent) -> Answer {
    let answer = right(call, control, lent);
    if matches!(call, Call::Commit { .. }) && answer.kind == DONE && call.input().len() > 80 {
        lent.input.lent_mut()[12] = 2;
    }
    answer
}

fn studio_bytes_changed(_: &mut Notes, call: &Call, control: Control, lent: &mut Lent) -> Answer {
    let answer = right(call, control, lent);
    if matches!(call, Call::Setup { .. }) && answer.kind == DONE {
        lent.input.lent_mut().fill(0);
    }
    answer
}

fn refused_changes_control(_: &mut Notes, call: &Call, control: Control, lent: &mut Lent) -> Answer {
    let mut answer = right(call, control, lent);
    if is_refused(&answer, 8) {
        answer.control.used += 1;
    }
    answer
}

fn refused_zero_control(_: &mut Notes, call: &Call, control: Control, lent: &mut Lent) -> Answer {
    let mut answer = right(call, control, lent);
    if is_refused(&answer, 2) {
        answer.control = Control::default();
    }
    answer
}

fn found_left_over(_: &mut Notes, call: &Call, control: Control, lent: &mut Lent) -> Answer {
    let mut answer = right(call, control, lent);
    if matches!(call, Call::Refresh { .. }) && answer.kind == DONE {
        answer.found = 1;
    }
    answer
}
