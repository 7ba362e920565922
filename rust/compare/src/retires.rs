//! What is met of retire (02's S-9), and of the records that commits take.

use crate::call::Call;
use crate::coverage::{Before, Coverage, outcome};
use crate::keys::{DONE, TAKEN_ALONE, TAKEN_FIRST, TAKEN_LEFT, TAKEN_NEXT};
use crate::keys::{RETIRE_ACTED, RETIRE_FREE, RETIRE_JOINED, RETIRE_LEAST, RETIRE_LEFT, RETIRE_OPERATIONS, RETIRE_PASSED_OVER};
use crate::keys::{RETIRE_NEEDED, RETIRE_NEEDED_LAST, RETIRE_NEEDED_SENT, RETIRE_NONE, RETIRE_STUDIOS, RETIRED};
use crate::lent::Lent;
use crate::log;
use crate::rows;
use crate::single;
use simulator::{Answer, Control, UNIT};

impl Coverage {
    /// A retire that rows 1 and 2 let through.
    pub fn note_retire(&mut self, call: &Call, control: &Control, before: &Before, answer: &Answer) {
        match (call, outcome(answer)) {
            (Call::Retire, DONE) => self.note_retired(control, before, answer),
            (Call::Retire, 20) if control.commits == control.retired => self.count((RETIRE_NONE, control.commits, 20)),
            (Call::Retire, 20) => self.note_needed(control),
            _ => {}
        }
    }

    fn note_retired(&mut self, control: &Control, before: &Before, answer: &Answer) {
        let applied = control.applied[..control.studios as usize].iter().min().copied().unwrap_or(0);
        self.count((RETIRED, answer.value, DONE));
        self.count((RETIRE_OPERATIONS, (before.oldest.len() / UNIT) as u32, DONE));
        self.count((RETIRE_LEFT, (control.commits - answer.value).min(2), DONE));
        self.count((RETIRE_LEAST, (applied - control.retired).min(2), DONE));
        self.count((RETIRE_FREE, rows::free_records(control) as u32, DONE));
        self.count((RETIRE_STUDIOS, control.studios, DONE));
        if let Some(last) = log::named(control.free_last) {
            self.count((RETIRE_JOINED, higher(last, control.oldest as usize - 1), DONE));
        }
        let mut sixth = before.sixth.clone();
        for unit in before.oldest.chunks_exact(UNIT) {
            let subject = if single::meets(&sixth, unit) { RETIRE_ACTED } else { RETIRE_PASSED_OVER };
            self.count((subject, u32::from(unit[0]), DONE));
            single::act(&mut sixth, unit);
        }
    }

    /// The log has a transaction that is still needed.
    fn note_needed(&mut self, control: &Control) {
        let studios = (1..).zip(&control.applied).take(control.studios as usize);
        let needing: Vec<u32> = studios.filter(|(_, applied)| **applied == control.retired).map(|(studio, _)| studio).collect();
        if let [studio] = needing[..] {
            let sent = control.sent[studio as usize - 1] - control.retired;
            self.count((RETIRE_NEEDED, studio, 20));
            self.count((RETIRE_NEEDED_SENT, sent.min(2), 20));
            if studio == control.studios {
                self.count((RETIRE_NEEDED_LAST, studio, 20));
            }
        }
    }

    /// The records of an accepted commit; `lent` is what it leaves.
    pub fn note_taken(&mut self, call: &Call, control: &Control, lent: &Lent, answer: &Answer) {
        let (Call::Commit { .. }, DONE) = (call, outcome(answer)) else { return };
        let (taken, _) = log::transaction(&answer.control, lent, answer.value);
        for pair in taken.windows(2) {
            self.count((TAKEN_NEXT, higher(pair[0], pair[1]), DONE));
        }
        match log::records(lent.log.lent(), &answer.control, control.commits) {
            Some(before) => self.count((TAKEN_FIRST, higher(before[0], taken[0]), DONE)),
            None => self.count((TAKEN_ALONE, control.retired.min(2), DONE)),
        }
        self.count((TAKEN_LEFT, rows::free_records(&answer.control) as u32, DONE));
    }
}

/// How much higher a record is than the one before it, between −1 and 2.
fn higher(before: usize, record: usize) -> u32 {
    (record as i64 - before as i64).clamp(-1, 2) as u32
}
