//! Carts, and a copy of 128 of them.

use crate::bytes::{all_zero, put_u16, put_u32, u16_at, u32_at};
use crate::sizes::{COPY, UNIT};
use crate::title::Title;

/// Audio number and length in milliseconds, both at least 1.
#[derive(Clone, Copy, PartialEq, Eq, Debug)]
pub struct Cut {
    audio: u32,
    length: u32,
}

impl Cut {
    pub fn decode(unit: &[u8]) -> Option<Cut> {
        let cut = Cut { audio: u32_at(unit, 4), length: u32_at(unit, 8) };
        (cut.audio >= 1 && cut.length >= 1).then_some(cut)
    }

    pub fn encode(&self, unit: &mut [u8]) {
        put_u32(unit, 4, self.audio);
        put_u32(unit, 8, self.length);
    }

    /// Whether a unit has neither audio nor length.
    pub fn absent(unit: &[u8]) -> bool {
        all_zero(&unit[4..12])
    }
}

/// A held cart. Its number is its place in the copy.
#[derive(Clone, Copy, PartialEq, Eq, Debug)]
pub struct Cart {
    pub title: Title,
    pub cut: Cut,
}

/// A copy: 128 places, empty or held.
pub type Copy = Vec<Option<Cart>>;

/// One cart of 80 bytes at the place of `number`; `None` when out of its rule.
fn decode_cart(unit: &[u8], number: u16) -> Option<Option<Cart>> {
    if all_zero(unit) {
        return Some(None);
    }
    let marked = unit[0] == 1 && u16_at(unit, 2) == number && all_zero(&unit[12..16]);
    if !marked {
        return None;
    }
    let cart = Cart { title: Title::decode(unit)?, cut: Cut::decode(unit)? };
    Some(Some(cart))
}

/// Writes a cart, or zeros for an empty one, over 80 bytes.
pub fn encode_cart(cart: Option<&Cart>, number: u16, unit: &mut [u8]) {
    unit.fill(0);
    if let Some(cart) = cart {
        unit[0] = 1;
        put_u16(unit, 2, number);
        cart.cut.encode(unit);
        cart.title.encode(unit);
    }
}

/// The copy, or `None` when it is not 10,240 bytes or a cart is out of its rule.
pub fn decode_copy(bytes: &[u8]) -> Option<Copy> {
    if bytes.len() != COPY {
        return None;
    }
    let units = bytes.chunks_exact(UNIT);
    (1..).zip(units).map(|(number, unit)| decode_cart(unit, number)).collect()
}

pub fn encode_copy(copy: &Copy, bytes: &mut [u8]) {
    for ((number, unit), cart) in (1..).zip(bytes.chunks_exact_mut(UNIT)).zip(copy) {
        encode_cart(cart.as_ref(), number, unit);
    }
}
