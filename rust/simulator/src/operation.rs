//! The four operations: their form, the state they must meet, their effect.

use crate::bytes::{all_zero, put_u16, u16_at};
use crate::cart::{Cart, Copy, Cut};
use crate::sizes::{CARTS, TRANSACTION_OPERATIONS, UNIT};
use crate::title::Title;

#[derive(Clone, Copy, PartialEq, Eq, Debug)]
pub enum Action {
    New(Cart),
    Retitle(Title),
    Recut(Cut),
    Withdraw,
}

#[derive(Clone, Copy, PartialEq, Eq, Debug)]
pub struct Operation {
    cart: u16,
    action: Action,
}

pub type Transaction = Vec<Operation>;

impl Operation {
    /// The operation of a record. Bytes 12 to 15 are the log's.
    pub fn decode(unit: &[u8]) -> Option<Operation> {
        let cart = u16_at(unit, 2);
        let known = (1..=CARTS).contains(&usize::from(cart));
        let action = known.then(|| decode_action(unit)).flatten()?;
        Some(Operation { cart, action })
    }

    /// An operation as handed in: bytes 12 to 15 are zero.
    pub fn handed_in(unit: &[u8]) -> Option<Operation> {
        all_zero(&unit[12..16]).then(|| Operation::decode(unit)).flatten()
    }

    /// Writes the operation over 80 bytes, bytes 12 to 15 as zero.
    pub fn encode(&self, unit: &mut [u8]) {
        unit.fill(0);
        put_u16(unit, 2, self.cart);
        match &self.action {
            Action::New(cart) => {
                unit[0] = 1;
                cart.title.encode(unit);
                cart.cut.encode(unit);
            }
            Action::Retitle(title) => {
                unit[0] = 2;
                title.encode(unit);
            }
            Action::Recut(cut) => {
                unit[0] = 3;
                cut.encode(unit);
            }
            Action::Withdraw => unit[0] = 4,
        }
    }

    /// Whether its cart is in the right state: empty for new, else held.
    pub fn meets(&self, copy: &Copy) -> bool {
        let held = copy[self.place()].is_some();
        held != matches!(self.action, Action::New(_))
    }

    /// The effect; nothing on a cart in the other state.
    pub fn act(&self, copy: &mut Copy) {
        let place = self.place();
        let before = copy[place];
        copy[place] = match (before, self.action) {
            (None, Action::New(cart)) => Some(cart),
            (Some(cart), Action::Retitle(title)) => Some(Cart { title, ..cart }),
            (Some(cart), Action::Recut(cut)) => Some(Cart { cut, ..cart }),
            (Some(_), Action::Withdraw) => None,
            (before, _) => before,
        };
    }

    fn place(&self) -> usize {
        usize::from(self.cart) - 1
    }
}

/// Whether bytes are as long as 1 to 8 whole operations.
pub fn transaction_sized(operations: &[u8]) -> bool {
    let count = operations.len() / UNIT;
    operations.len().is_multiple_of(UNIT) && (1..=TRANSACTION_OPERATIONS).contains(&count)
}

/// The operations as handed in, one after the other, or `None` when one is out of form.
pub fn transaction_handed_in(operations: &[u8]) -> Option<Transaction> {
    operations.chunks_exact(UNIT).map(Operation::handed_in).collect()
}

/// The effect of all operations, in their order.
pub fn act_all(transaction: &[Operation], copy: &mut Copy) {
    for operation in transaction {
        operation.act(copy);
    }
}

/// Whether a unit is a new or retitle whose title begins or ends with a space.
/// That does not put it out of form.
pub fn title_spaced(unit: &[u8]) -> bool {
    matches!(unit[0], 1 | 2) && Title::spaced(unit)
}

fn decode_action(unit: &[u8]) -> Option<Action> {
    let (title, cut) = (Title::decode(unit), Cut::decode(unit));
    let (no_title, no_cut) = (Title::absent(unit), Cut::absent(unit));
    match unit[0] {
        1 => Some(Action::New(Cart { title: title?, cut: cut? })),
        2 if no_cut => Some(Action::Retitle(title?)),
        3 if no_title => Some(Action::Recut(cut?)),
        4 if no_title && no_cut => Some(Action::Withdraw),
        _ => None,
    }
}
