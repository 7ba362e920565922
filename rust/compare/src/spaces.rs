//! What is met of spaced titles, those that begin or end with a space (02's S-2): in operations, and in the carts, records
//! and requests that may have them.

use crate::call::Call;
use crate::coverage::{Before, Coverage, end_of, outcome};
use crate::keys::{APPLIED, COLLECT_SPACES, COMMIT, DONE, Edit, FORWARD_SPACES, PREVIEW, READ, READ_SPACES, Reading, SENT_OVER, WAITED};
use crate::lent::{Lent, Part};
use crate::log;
use crate::rows::{self, title, title_spaced};
use crate::single;
use simulator::{Answer, COPY, UNIT};

impl Coverage {
    pub fn note_spaces(&mut self, call: &Call, before: &Before, after: &Lent, answer: &Answer) {
        match (call, outcome(answer)) {
            (Call::Commit { operations, .. }, end @ (8 | 16 | DONE)) => self.note_spaced_edit(&COMMIT, operations, before, end),
            (Call::Preview { operations, .. }, end @ (8 | 16 | DONE)) => self.note_spaced_edit(&PREVIEW, operations, before, end),
            (Call::Send { studio }, DONE) if any_spaced(&after.library) && any_spaced(&after.log) => {
                self.count((SENT_OVER, *studio, DONE));
            }
            (Call::Refresh { studio }, DONE) => self.note_spaced_records(*studio, after, answer),
            (Call::Read { request, .. }, end @ (READ | WAITED)) => self.note_spaced_reading(&READ_SPACES, request, after, answer, end),
            (Call::Collect { .. }, end @ (READ | WAITED)) => {
                self.note_spaced_reading(&COLLECT_SPACES, &before.session, after, answer, end);
            }
            (Call::Forward { request, .. }, READ) => {
                self.note_spaced_reading(&FORWARD_SPACES, request, after, answer, end_of(call, before, answer));
            }
            _ => {}
        }
    }

    /// All operations are in form.
    fn note_spaced_edit(&mut self, of: &Edit, operations: &[u8], before: &Before, end: u32) {
        let spaced: Vec<u32> =
            (1..).zip(operations.chunks_exact(UNIT)).filter(|(_, unit)| title_spaced(unit)).map(|(place, _)| place).collect();
        if let ([place], 640) = (&spaced[..], operations.len()) {
            self.count((of.spaced_place, *place, end));
        }
        let mut head_end = before.head_end.clone();
        for unit in operations.chunks_exact(UNIT) {
            self.note_title(of, unit, end);
            self.note_spaced_cart(of, unit, &head_end, end);
            single::act(&mut head_end, unit);
        }
    }

    fn note_title(&mut self, of: &Edit, unit: &[u8], end: u32) {
        let title = title(unit);
        let subject = match (title.first(), title.last()) {
            (Some(32), Some(32)) => of.space_both,
            (Some(32), _) => of.space_first,
            (_, Some(32)) => of.space_last,
            _ if title.contains(&32) => of.space_inside,
            _ => return,
        };
        self.count((subject, title.len() as u32, end));
    }

    /// An operation that meets a cart with a spaced title.
    fn note_spaced_cart(&mut self, of: &Edit, unit: &[u8], head_end: &[u8], end: u32) {
        let Some(at) = single::cart_at(unit) else { return };
        let cart = &head_end[at..at + UNIT];
        if title_spaced(cart) {
            self.count((of.spaced_cart, u32::from(unit[0]), end));
            if unit[0] == 2 && title(unit) == title(cart) {
                self.count((of.same_title, u32::from(unit[1]), end));
            }
        }
    }

    /// The records of the transaction just applied whose spaced title the studio's cart now has.
    fn note_spaced_records(&mut self, studio: u32, after: &Lent, answer: &Answer) {
        let copy = &after.library.lent()[COPY * studio as usize..];
        let (_, operations) = log::transaction(&answer.control, after, answer.value);
        for unit in operations.iter().filter(|unit| title_spaced(unit)) {
            let shown = single::cart_at(unit).is_some_and(|at| title(&copy[at..at + UNIT]) == title(unit));
            if shown {
                self.count((APPLIED, u32::from(unit[0]), DONE));
            }
        }
    }

    fn note_spaced_reading(&mut self, of: &Reading, request: &[u8], after: &Lent, answer: &Answer, end: u32) {
        if request[0] == 2 && title_spaced(request) {
            self.count((of.asked, u32::from(request[1]), end));
            self.count((of.found, answer.found, end));
        }
        if request[0] == 1 && end != WAITED {
            let places = after.output.lent()[..rows::output_asked(request)].chunks_exact(UNIT);
            let shown = places.filter(|unit| title_spaced(unit)).count();
            self.count((of.shown, shown as u32, end));
        }
    }
}

/// Whether a cart or a record of this memory has a spaced title.
fn any_spaced(part: &Part) -> bool {
    part.lent().chunks_exact(UNIT).any(title_spaced)
}
