//! What a receive is lent (02's S-6): the van's copy and a message, between guard bytes; and the van's applied number.

use crate::call::hex;
use crate::lent::Part;
use crate::message::{self, HEAD};
use simulator::{UNIT, VanAnswer};
use std::fmt;

#[derive(Clone)]
pub struct Delivery {
    pub copy: Part,
    pub applied: u32,
    pub message: Part,
}

impl Delivery {
    pub fn new(copy: &[u8], applied: u32, message: &[u8]) -> Delivery {
        Delivery { copy: Part::new(copy), applied, message: Part::new(message) }
    }

    /// The receive as the simulator has it.
    pub fn simulate(&mut self) -> VanAnswer {
        simulator::van_receive(self.copy.lent_mut(), self.applied, self.message.lent())
    }

    /// The message's number.
    pub fn number(&self) -> u32 {
        message::number(self.message.lent())
    }
}

impl fmt::Display for Delivery {
    fn fmt(&self, f: &mut fmt::Formatter<'_>) -> fmt::Result {
        let (copy, applied, message) = (self.copy.len(), self.applied, self.message.lent());
        let (head, operations) = message.split_at(message.len().min(HEAD));
        write!(f, "receive in {copy} bytes, applied {applied}, message of {} bytes: {}", message.len(), hex(head))?;
        operations.chunks(UNIT).take(9).try_for_each(|unit| write!(f, "\n    {}", hex(unit)))
    }
}
