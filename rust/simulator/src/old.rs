//! Wall files of the thirty-two-character edition, of request S-10: their form, and the
//! conversions between one and a copy of ours. Either form is decoded into the same value.

use crate::bytes::{all_zero, put_u16, u16_at};
use crate::cart::{Cart, Copy, Cut, decode_copy, encode_copy};
use crate::control::{Answer, Control, Outcome};
use crate::sizes::{COPY, OLD_FILE, OLD_MARK, OLD_TITLE, OLD_UNIT};
use crate::system::as_u32;
use crate::title::{TITLE_AT, Title};

/// The bytes that an old file begins with.
const MARK: [u8; OLD_MARK] = *b"CART32";

/// From an old file to one copy of ours, every byte of which is written. Returns how many.
pub fn from_old(file: &[u8], copy: &mut [u8]) -> Answer {
    let Some(carts) = decode_file(file) else {
        return refused(22);
    };
    if copy.len() != COPY {
        return refused(22);
    }
    encode_copy(&carts, copy);
    written(copy)
}

/// From one copy of ours to an old file, every byte of which is written, if each title
/// has room there. Returns how many.
pub fn to_old(copy: &[u8], file: &mut [u8]) -> Answer {
    let Some(carts) = decode_copy(copy) else {
        return refused(22);
    };
    if file.len() != OLD_FILE {
        return refused(22);
    }
    if carts.iter().flatten().any(too_long) {
        return refused(23);
    }
    encode_file(&carts, file);
    written(file)
}

fn too_long(cart: &Cart) -> bool {
    cart.title.letters().len() > OLD_TITLE
}

fn refused(number: u32) -> Answer {
    Outcome::Refused(number).with(Control::default())
}

fn written(output: &[u8]) -> Answer {
    Outcome::Done(as_u32(output.len())).with(Control::default())
}

/// The carts of an old file, or `None` when it is not 6,150 bytes, does not begin with
/// CART32, or a cart is out of its rule.
fn decode_file(file: &[u8]) -> Option<Copy> {
    if file.len() != OLD_FILE {
        return None;
    }
    let (mark, units) = file.split_at(OLD_MARK);
    if mark != MARK {
        return None;
    }
    (1..).zip(units.chunks_exact(OLD_UNIT)).map(|(number, unit)| decode_cart(unit, number)).collect()
}

fn encode_file(carts: &Copy, file: &mut [u8]) {
    let (mark, units) = file.split_at_mut(OLD_MARK);
    mark.copy_from_slice(&MARK);
    for ((number, unit), cart) in (1..).zip(units.chunks_exact_mut(OLD_UNIT)).zip(carts) {
        encode_cart(cart.as_ref(), number, unit);
    }
}

/// One cart of 48 bytes at the place of `number`; `None` when out of its rule. Spaces at
/// a title's ends are within it.
fn decode_cart(unit: &[u8], number: u16) -> Option<Option<Cart>> {
    if all_zero(unit) {
        return Some(None);
    }
    let marked = unit[0] == 1 && u16_at(unit, 2) == number && all_zero(&unit[12..16]);
    // A length above 32 is more than there are bytes.
    let (letters, rest) = unit[TITLE_AT..].split_at_checked(usize::from(unit[1]))?;
    if !marked || !all_zero(rest) {
        return None;
    }
    Some(Some(Cart { title: Title::of(letters)?, cut: Cut::decode(unit)? }))
}

/// Writes a cart whose title is not too long, or zeros for an empty one, over 48 bytes.
fn encode_cart(cart: Option<&Cart>, number: u16, unit: &mut [u8]) {
    unit.fill(0);
    if let Some(cart) = cart {
        let letters = cart.title.letters();
        unit[0] = 1;
        unit[1] = u8::try_from(letters.len()).expect("at most 32 letters");
        put_u16(unit, 2, number);
        cart.cut.encode(unit);
        unit[TITLE_AT..TITLE_AT + letters.len()].copy_from_slice(letters);
    }
}
