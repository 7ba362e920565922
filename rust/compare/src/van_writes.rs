//! What is met of van_write (02's S-6).

use crate::call::Call;
use crate::coverage::{Coverage, outcome};
use crate::keys::{DONE, VAN_WRITE_COMMITS, VAN_WRITE_COUNT, VAN_WRITE_GONE, VAN_WRITE_LOW, VAN_WRITE_NUMBER, VAN_WRITE_RETIRED};
use crate::keys::{VAN_WRITE_ROOM, VAN_WRITE_SPACED, VAN_WRITE_SPARE, VAN_WRITE_UNSENT};
use crate::lent::Lent;
use crate::message::{self, HEAD};
use crate::rows::title_spaced;
use simulator::{Answer, Control, UNIT};

impl Coverage {
    /// `lent` is what the call leaves; its three memories are those that it was lent.
    pub fn note_van_write(&mut self, call: &Call, control: &Control, lent: &Lent, answer: &Answer) {
        let (Call::VanWrite { number, output }, end @ (17 | 21 | DONE)) = (call, outcome(answer)) else { return };
        let above = |count: u32| (i64::from(*number) - i64::from(count)).clamp(-2, 2) as u32;
        self.count((VAN_WRITE_NUMBER, *number, end));
        self.count((VAN_WRITE_COMMITS, above(control.commits), end));
        self.count((VAN_WRITE_RETIRED, above(control.retired), end));
        let known = 1..=control.commits;
        if end == 21 {
            self.count((VAN_WRITE_GONE, *output as u32, end));
        } else if known.contains(number) {
            self.note_message(*number, *output, control, lent, end);
        } else if known.contains(&(*number & 0xFFFF)) {
            self.count((VAN_WRITE_LOW, 0, end));
        }
    }

    /// There is such a transaction.
    fn note_message(&mut self, number: u32, output: usize, control: &Control, lent: &Lent, end: u32) {
        let operations = message::operations_in_log(control, lent, number).expect("the log is of the layout");
        let (count, spare) = (operations.len() / UNIT, output as i64 - (HEAD + operations.len()) as i64);
        self.count((VAN_WRITE_COUNT, count as u32, end));
        self.count((VAN_WRITE_SPARE, spare.clamp(-2, 2) as u32, end));
        if count == 8 {
            self.count((VAN_WRITE_ROOM, output as u32, end));
        }
        if control.sent.iter().all(|sent| *sent < number) {
            self.count((VAN_WRITE_UNSENT, 0, end));
        }
        for unit in operations.chunks_exact(UNIT).filter(|unit| title_spaced(unit)) {
            self.count((VAN_WRITE_SPACED, u32::from(unit[0]), end));
        }
    }
}
