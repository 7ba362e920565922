//! What is met of moves (02's S-7), of the numbers that answered reads raise, and of the reading calls after a move.

use crate::call::Call;
use crate::coverage::{Before, Coverage, end_of, outcome};
use crate::keys::{ANSWERS, ANSWERS_MOVED, COLLECT_MOVED, FORWARD_HELD, FORWARD_MOVED, READ_HELD, READ_MOVED};
use crate::keys::{BY_BOTH, BY_OUTSIDE, BY_STUDIO, BY_UNUSED, COLLECT_RAISES, FORWARD_RAISES, READ_RAISES, Raises};
use crate::keys::{DONE, HEAD_END, MOVE_ABOVE, MOVE_AHEAD, MOVE_AWAY, MOVE_BEHIND, MOVE_HERE, MOVE_SESSION, MOVE_STUDIO, READ, WAITED};
use crate::rows;
use crate::walks::Walk;
use simulator::{Answer, Control};

impl Coverage {
    /// The arguments of a move that rows 1 and 2 let through.
    pub fn note_move(&mut self, call: &Call, control: &Control, before: &Before, answer: &Answer) {
        let (Call::Move { session, studio }, end @ (3 | 4 | DONE)) = (call, outcome(answer)) else { return };
        self.count((MOVE_SESSION, *session, end));
        self.count((MOVE_STUDIO, *studio, end));
        self.count((MOVE_ABOVE, studio.wrapping_sub(control.studios), end));
        match end {
            3 => self.note_row_3(call, *studio, control),
            _ => self.note_known(call, *studio, control, before, end),
        }
    }

    /// Which part of row 3 holds.
    fn note_row_3(&mut self, call: &Call, studio: u32, control: &Control) {
        let (nobody, nowhere) = (rows::session_studio(call, control) == 0, rows::unknown_studio(studio, control));
        let subject = match (nobody, nowhere) {
            (true, true) => BY_BOTH,
            (true, false) if rows::place(call) == 0 => BY_OUTSIDE,
            (true, false) => BY_UNUSED,
            _ => BY_STUDIO,
        };
        self.count((subject, 0, 3));
    }

    /// There are such a session and such a studio.
    fn note_known(&mut self, call: &Call, studio: u32, control: &Control, before: &Before, end: u32) {
        let here = rows::session_studio(call, control);
        self.count((if studio == here { MOVE_HERE } else { MOVE_AWAY }, 0, end));
        let number = i64::from(rows::session_number(&before.session));
        let mut less_applied = |subject, studio: u32| {
            let applied = i64::from(control.applied[studio as usize - 1]);
            self.count((subject, (number - applied).clamp(-2, 2) as u32, end));
        };
        less_applied(MOVE_BEHIND, here);
        if studio != here {
            less_applied(MOVE_AHEAD, studio);
        }
    }

    /// An answer of a studio that raises the session's number.
    pub fn note_raise(&mut self, call: &Call, before: &Before, answer: &Answer) {
        let (Some(of), READ) = (raises(call), end_of(call, before, answer)) else { return };
        let number = rows::session_number(&before.session);
        if number < answer.value {
            self.count((of.from, number, READ));
            self.count((of.by, (answer.value - number).min(2), READ));
            self.count((of.high, answer.value >> 8, READ));
        }
    }

    /// A reading call of a session: what its answer shows beside the one before, and how it ends after a move.
    pub fn note_walk(&mut self, call: &Call, walk: Walk, control: &Control, before: &Before, answer: &Answer) {
        let end = end_of(call, before, answer);
        if !rows::reads(call) || !matches!(end, READ | WAITED | HEAD_END) {
            return;
        }
        self.note_shown(walk, answer.value, end);
        let subject = match call {
            Call::Read { .. } if walk.moved => READ_MOVED,
            Call::Forward { .. } if walk.moved => FORWARD_MOVED,
            Call::Collect { .. } if walk.waits => COLLECT_MOVED,
            _ => return,
        };
        self.count((subject, 0, end));
        let held_by = rows::applied(call, control).and_then(|applied| walk.held_by(applied));
        match (call, end, held_by) {
            (Call::Read { .. }, WAITED, Some(by)) => self.count((READ_HELD[by as usize], 0, end)),
            (Call::Forward { .. }, HEAD_END, Some(by)) => self.count((FORWARD_HELD[by as usize], 0, end)),
            _ => {}
        }
    }

    /// How much further than the session's last answer this one is, 2 standing for more too.
    fn note_shown(&mut self, walk: Walk, state: u32, end: u32) {
        let (Some(shown), READ | HEAD_END) = (walk.shown, end) else { return };
        self.watched += 1;
        self.count((ANSWERS, (state - shown).min(2), end));
        if walk.moved {
            self.watched_moved += 1;
            self.count((ANSWERS_MOVED, (state - shown).min(2), end));
        }
    }
}

fn raises(call: &Call) -> Option<Raises> {
    match call {
        Call::Read { .. } => Some(READ_RAISES),
        Call::Collect { .. } => Some(COLLECT_RAISES),
        Call::Forward { .. } => Some(FORWARD_RAISES),
        _ => None,
    }
}
