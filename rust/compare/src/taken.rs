//! What is met of carts in a wrong state, of the numbers that refusal 8 raises (02's S-3), and of the reads after it.

use crate::call::Call;
use crate::coverage::{Before, Coverage, outcome};
use crate::keys::{COLLECT_TOLD, COMMIT, PREVIEW, RAISED, RAISED_BEHIND, RAISED_FROM, RAISED_HIGH, READ, READ_TOLD, READ_TOLD_ALONE};
use crate::keys::{REFUSED_AT, WAITED};
use crate::rows;
use crate::told::Told;
use simulator::{Answer, Control, UNIT};

impl Coverage {
    /// A commit or a preview of which row 8 holds, whichever row stops it: those after 2 alone, since memory must be of the layout.
    pub fn note_wrong_state(&mut self, call: &Call, control: &Control, holding: &[u32], before: &Before, answer: &Answer) {
        let (of, operations) = match call {
            Call::Commit { operations, .. } => (&COMMIT, operations),
            Call::Preview { operations, .. } => (&PREVIEW, operations),
            _ => return,
        };
        let end = outcome(answer);
        if !holding.contains(&8) || matches!(end, 1 | 2) {
            return;
        }
        let behind = control.commits - rows::session_number(&before.session);
        self.count((of.wrong_state, behind.min(2), end));
        if let (8, Some(place)) = (end, rows::first_at_fault(operations, &before.head_end)) {
            self.count((of.at_fault, place as u32 + 1, end));
            self.count((of.fault_kind, u32::from(operations[UNIT * place]), end));
        }
    }

    /// A commit refused with 8, the next read of its session, and a collect of that read.
    pub fn note_told(&mut self, call: &Call, told: Told, control: &Control, before: &Before, answer: &Answer) {
        let studio = rows::session_studio(call, control) as usize;
        match (call, outcome(answer), told) {
            (Call::Commit { .. }, 8, _) => self.note_raised(rows::session_number(&before.session), control, studio),
            (Call::Read { .. }, end @ (READ | WAITED), Told::Refused(number)) => {
                self.count_end(READ_TOLD, answer);
                if end == WAITED && number <= control.applied[studio - 1] {
                    self.count_end(READ_TOLD_ALONE, answer);
                }
            }
            (Call::Collect { .. }, READ | WAITED, Told::RefusedWaits) => self.count_end(COLLECT_TOLD, answer),
            _ => {}
        }
    }

    fn note_raised(&mut self, number: u32, control: &Control, studio: usize) {
        self.count((REFUSED_AT, control.commits, 8));
        if number < control.commits {
            self.count(RAISED);
            self.count((RAISED_FROM, number, 8));
            self.count((RAISED_HIGH, control.commits >> 8, 8));
            self.count((RAISED_BEHIND, (control.commits - control.applied[studio - 1]).min(2), 8));
        }
    }
}
