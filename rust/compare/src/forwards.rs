//! What is met of forwards (02's S-4), and of the reads, collects and forwards after one that the head end answered.

use crate::call::Call;
use crate::coverage::{Before, Coverage, end_of};
use crate::keys::{COLLECT_FORWARDED, COLLECT_KEPT, FORWARD_AGAIN, FORWARD_AGAIN_ALONE, FORWARD_TOLD};
use crate::keys::{FORWARD_COMMITS, FORWARD_HIGH, FORWARD_NUMBER, FORWARD_RAISED, FORWARD_STUDIO, FORWARD_UNMADE};
use crate::keys::{HEAD_END, READ, READ_FORWARDED, READ_FORWARDED_ALONE, READ_STRAIGHT, WAITED};
use crate::lent::Lent;
use crate::made::Log;
use crate::rows;
use crate::told::{Sessions, Told};
use simulator::{Answer, COPY, Control};

impl Coverage {
    /// An answered forward; `lent` is what it leaves, and its library and log are those that it was lent.
    pub fn note_forward(&mut self, call: &Call, control: &Control, before: &Before, lent: &Lent, answer: &Answer) {
        let end = end_of(call, before, answer);
        let Call::Forward { request, .. } = call else { return };
        if !matches!(end, READ | HEAD_END) {
            return;
        }
        let number = rows::session_number(&before.session);
        self.count((FORWARD_NUMBER, number, end));
        self.count((FORWARD_COMMITS, control.commits, end));
        self.count((FORWARD_STUDIO, rows::session_studio(call, control), end));
        if end == HEAD_END {
            self.count((FORWARD_RAISED, (control.commits - number).min(2), end));
        }
        if end == HEAD_END && number < control.commits {
            self.count((FORWARD_HIGH, control.commits >> 8, end));
        }
        if lent.library.lent()[..COPY] != Log::new(control, lent).library(control.commits) {
            self.count((FORWARD_UNMADE, u32::from(request[0]), end));
        }
    }

    /// The next reading call of a session after a forward by the head end or a refusal 8, and a collect of that read.
    pub fn note_after_forward(&mut self, call: &Call, told: &Sessions, control: &Control, before: &Before, answer: &Answer) {
        let end = end_of(call, before, answer);
        let reached = |number: u32| rows::applied(call, control).is_some_and(|applied| number <= applied);
        match (call, end, told.of(call)) {
            (Call::Read { .. }, READ | WAITED, Told::Forwarded(number)) => {
                self.count((READ_FORWARDED, 0, end));
                if told.straight_after(call) {
                    self.count((READ_STRAIGHT, 0, end));
                }
                if end == WAITED && reached(number) {
                    self.count((READ_FORWARDED_ALONE, 0, end));
                }
            }
            (Call::Forward { .. }, READ | HEAD_END, Told::Forwarded(number)) => {
                self.count((FORWARD_AGAIN, 0, end));
                if end == HEAD_END && reached(number) {
                    self.count((FORWARD_AGAIN_ALONE, 0, end));
                }
            }
            (Call::Forward { .. }, READ | HEAD_END, Told::Refused(_)) => self.count((FORWARD_TOLD, 0, end)),
            (Call::Collect { .. }, READ | WAITED, Told::ForwardedWaits) => self.count((COLLECT_FORWARDED, 0, end)),
            _ => {}
        }
        if matches!((call, end), (Call::Collect { .. }, READ)) && told.stopped_by_4(call) {
            self.count((COLLECT_KEPT, 0, end));
        }
    }
}
