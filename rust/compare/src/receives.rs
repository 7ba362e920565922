//! What is met of receives (02's S-6): anywhere, and in the lists for fresh vans.

use crate::coverage::Coverage;
use crate::delivery::Delivery;
use crate::faults::{self, FAULTS};
use crate::keys::{ACTED, ARRIVED_AGAIN, ARRIVED_LATE, ARRIVED_RETIRED, ARRIVED_SPACED, PASSED_OVER, REPEATED, RUN, RUN_HIGH, RUN_LOST};
use crate::keys::{DONE, HELD, RECEIVE, RECEIVE_AHEAD, RECEIVE_APPLIED, RECEIVE_BYTES, RECEIVE_CART, RECEIVE_COPY, RECEIVE_COUNT};
use crate::keys::{RECEIVE_NUMBER, RECEIVE_OPERATION, RECEIVE_SPACED, RECEIVE_SPARE, RUN_SOON, RUN_WHOLE};
use crate::message::{self, HEAD};
use crate::rows::title_spaced;
use crate::single;
use crate::written::{Message, Written};
use simulator::{REFUSED, UNIT, VanAnswer};

impl Coverage {
    /// `delivery` is what the receive was lent.
    pub fn note_receive(&mut self, delivery: &Delivery, answer: VanAnswer) {
        self.receives += 1;
        let end = end_of(answer);
        self.count((RECEIVE, 0, end));
        self.count((RECEIVE_BYTES, delivery.message.len() as u32, end));
        match faults::holding(delivery.copy.lent(), delivery.message.lent())[..] {
            [] => self.note_in_form(delivery, end),
            [fault] => self.note_fault(fault, delivery, end),
            _ => {}
        }
    }

    /// Message and copy are in form.
    fn note_in_form(&mut self, delivery: &Delivery, end: u32) {
        let message = delivery.message.lent();
        self.count((RECEIVE_NUMBER, delivery.number(), end));
        self.count((RECEIVE_APPLIED, delivery.applied, end));
        self.count((RECEIVE_AHEAD, ahead(delivery).clamp(-2, 3) as u32, end));
        self.count((RECEIVE_COUNT, message::count(message) as u32, end));
        let mut copy = delivery.copy.lent().to_vec();
        for unit in message::operations(message) {
            let kind = u32::from(unit[0]);
            self.count((if single::meets(&copy, unit) { ACTED } else { PASSED_OVER }, kind, end));
            if title_spaced(unit) {
                self.count((RECEIVE_SPACED, kind, end));
            }
            single::act(&mut copy, unit);
        }
    }

    /// One reason alone for refusal 17.
    fn note_fault(&mut self, fault: usize, delivery: &Delivery, end: u32) {
        let (copy, message) = (delivery.copy.lent(), delivery.message.lent());
        self.count((FAULTS[fault].0, ahead(delivery).clamp(0, 2) as u32, end));
        self.count((RECEIVE_COUNT, message::count(message) as u32, end));
        self.count((RECEIVE_COPY, copy.len() as u32, end));
        let spare = message.len() as i64 - (HEAD + UNIT * message::count(message)) as i64;
        self.count((RECEIVE_SPARE, spare.clamp(-2, 2) as u32, end));
        if let ([place], 8) = (&faults::operations_out_of_form(message).collect::<Vec<_>>()[..], message::count(message)) {
            self.count((RECEIVE_OPERATION, *place, end));
        }
        if let [cart] = &faults::carts_out_of_form(copy).collect::<Vec<_>>()[..] {
            self.count((RECEIVE_CART, *cart, end));
        }
    }

    /// A message for a fresh van, with the numbers received before it; `applied` is the van's before it.
    pub fn note_arrived(&mut self, message: &Message, before: &[u32], applied: u32, written: &Written, answer: VanAnswer) {
        self.arrived += 1;
        let (number, end) = (message.number, end_of(answer));
        match end {
            HELD => self.count((REPEATED, applied.saturating_sub(number).min(2), end)),
            DONE if before.contains(&number) => self.count((ARRIVED_AGAIN, 0, end)),
            _ => {}
        }
        if message.commits < written.commits() {
            self.count((ARRIVED_LATE, 0, end));
        }
        if number <= written.retired {
            self.count((ARRIVED_RETIRED, 0, end));
        }
        if message::operations(&message.bytes).any(title_spaced) {
            self.count((ARRIVED_SPACED, 0, end));
        }
    }

    /// A whole list of numbers for a fresh van, and what it has applied after it.
    pub fn note_run(&mut self, numbers: &[u32], applied: u32) {
        self.vans += 1;
        self.count((RUN, applied, DONE));
        self.count((RUN_HIGH, applied >> 8, DONE));
        let ends = match (numbers.contains(&(applied + 1)), numbers.iter().any(|number| *number > applied)) {
            (true, _) => RUN_SOON,
            (false, true) => RUN_LOST,
            (false, false) => RUN_WHOLE,
        };
        self.count((ends, 0, DONE));
    }
}

fn ahead(delivery: &Delivery) -> i64 {
    i64::from(delivery.number()) - i64::from(delivery.applied)
}

fn end_of(answer: VanAnswer) -> u32 {
    match answer.kind {
        REFUSED => answer.value,
        simulator::HELD => HELD,
        _ => DONE,
    }
}
