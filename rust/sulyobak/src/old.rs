//! Wall files of the thirty-two-character edition: such a file converted to one copy, and a copy to such a file.
//!
//! An old file is [`sizes::OLD_FILE`] bytes: the bytes `CART32`, then 128 carts of 48 bytes each, laid out as ours with a title of 1 to 32
//! letters. Each cart keeps its place, audio number, length and title, letter for letter; nothing is cut. A file that is converted and
//! converted back is the same file, and a copy that is accepted the same copy.
//!
//! The copy that is made is bytes to look at or to commit from. It is in no log: a library whose copy it were laid over would no longer
//! load ([`Refusal::NotWhole`]).
use crate::answer::Refusal;
use crate::call::counted;
use crate::version;
use std::fmt;
use sulyobak_sys::{self as sys, sizes};

// What an old file begins with, the bytes of a cart before its title, in an old file as in a copy, and the bytes of a cart in an old file.
const MARK: &[u8] = b"CART32";
const HEAD: usize = 16;
const OLD_CART: usize = HEAD + sizes::OLD_TITLE;

/// Converts an old file to one copy of [`sizes::COPY`] bytes. A file that is not of its length or form is refused
/// ([`Refusal::NotConvertible`]): [`file_fault`] says where.
///
/// A wall of two carts, there and back:
///
/// ```
/// use sulyobak::old::{from_old, to_old};
/// use sulyobak::{sizes, Cart, Operation, Refusal, Title};
///
/// # fn main() -> Result<(), Box<dyn std::error::Error>> {
/// // The first 48 bytes of a new are those of the cart in an old file.
/// let mut file = [0; sizes::OLD_FILE];
/// file[..6].copy_from_slice(b"CART32");
/// for (cart, text) in [(7, "Top hour A"), (30, "News bed")] {
///     let new = Operation::New { cart, title: Title::new(text)?, audio: 501, milliseconds: 8_000 }.to_bytes();
///     file[6 + 48 * (usize::from(cart) - 1)..][..48].copy_from_slice(&new[..48]);
/// }
///
/// let copy = from_old(&file)?;
/// let cart = Cart::from_bytes(copy[80 * 29..80 * 30].try_into()?);
/// assert_eq!(cart.map(|cart| (cart.number, cart.title)), Some((30, Title::new("News bed")?)));
/// assert_eq!(to_old(&copy)?, file, "the same file");
///
/// file[0] = b'c';
/// assert_eq!(from_old(&file), Err(Refusal::NotConvertible));
/// # Ok(())
/// # }
/// ```
pub fn from_old(file: &[u8]) -> Result<[u8; sizes::COPY], Refusal> {
    let mut copy = [0; sizes::COPY];
    from_old_into(file, &mut copy)?;
    Ok(copy)
}

/// The same into a copy that the caller lends, of exactly [`sizes::COPY`] bytes (else [`Refusal::NotConvertible`]). Returns the bytes
/// written: all of them. Where it is refused, the lent bytes stay as they were.
pub fn from_old_into(file: &[u8], copy: &mut [u8]) -> Result<usize, Refusal> {
    version::check()?;
    // SAFETY: each pointer comes with its length from one slice, which stays borrowed for the whole call; what is written is borrowed
    // mutably. The engine accepts any bytes, keeps no pointer, and does not unwind.
    let answer = unsafe { sys::sulyobak_from_old(file.as_ptr(), file.len(), copy.as_mut_ptr(), copy.len()) };
    written(&answer)
}

/// Converts a copy to an old file, for example the head end's: the first [`sizes::COPY`] bytes of library memory. A copy that is not of its
/// length or form is refused ([`Refusal::NotConvertible`]), and then one with a title of more than 32 letters ([`Refusal::LongTitle`]):
/// [`copy_fault`] says which cart it is.
///
/// A title of 33 letters is refused, not cut:
///
/// ```
/// use sulyobak::old::{copy_fault, from_old, to_old, Fault};
/// use sulyobak::{sizes, Library, Operation, Refusal, Title};
///
/// # fn main() -> Result<(), Box<dyn std::error::Error>> {
/// let mut library = Library::new(1, &[1])?;
/// let title = Title::new("Top of the hour, Sunday, long cut")?;
/// library.commit(1, &[Operation::New { cart: 7, title, audio: 501, milliseconds: 8_000 }])?;
///
/// let copy = &library.memory().library[..sizes::COPY];
/// assert_eq!(to_old(copy), Err(Refusal::LongTitle));
/// assert_eq!(copy_fault(copy), Some(Fault::LongTitle(7)));
///
/// library.commit(1, &[Operation::Retitle { cart: 7, title: Title::new("Top of the hour, Sunday, long")? }])?;
/// let copy = &library.memory().library[..sizes::COPY];
/// assert_eq!(from_old(&to_old(copy)?)?, *copy, "the same copy");
/// # Ok(())
/// # }
/// ```
pub fn to_old(copy: &[u8]) -> Result<[u8; sizes::OLD_FILE], Refusal> {
    let mut file = [0; sizes::OLD_FILE];
    to_old_into(copy, &mut file)?;
    Ok(file)
}

/// The same into a file that the caller lends, of exactly [`sizes::OLD_FILE`] bytes (else [`Refusal::NotConvertible`]). Returns the bytes
/// written: all of them. Where it is refused, the lent bytes stay as they were.
pub fn to_old_into(copy: &[u8], file: &mut [u8]) -> Result<usize, Refusal> {
    version::check()?;
    // SAFETY: as in `from_old_into`.
    let answer = unsafe { sys::sulyobak_to_old(copy.as_ptr(), copy.len(), file.as_mut_ptr(), file.len()) };
    written(&answer)
}

// What a conversion wrote, or its refusal.
fn written(answer: &sys::Answer) -> Result<usize, Refusal> {
    match answer.kind {
        sys::REFUSED => Err(Refusal::of_conversion(answer.value)),
        _ => counted(answer).map(|written| written as usize),
    }
}

/// What a conversion finds fault with, for the person who mends it. Whether it is refused the engine alone decides.
#[derive(Clone, Copy, Debug, PartialEq, Eq, Hash)]
pub enum Fault {
    /// The file or copy has another length.
    Length,
    /// The file does not begin with `CART32`.
    Mark,
    /// The first cart that is out of form, by its place from 1.
    Form(u16),
    /// Every cart is of the form; the first cart whose title has more than 32 letters.
    LongTitle(u16),
}

/// What [`from_old`] finds fault with in a file; none where it is accepted.
pub fn file_fault(file: &[u8]) -> Option<Fault> {
    match file.strip_prefix(MARK) {
        _ if file.len() != sizes::OLD_FILE => Some(Fault::Length),
        None => Some(Fault::Mark),
        Some(carts) => first_cart(carts, OLD_CART, |cart, unit| !is_cart(cart, unit)).map(Fault::Form),
    }
}

/// What [`to_old`] finds fault with in a copy; none where it is accepted.
pub fn copy_fault(copy: &[u8]) -> Option<Fault> {
    if copy.len() != sizes::COPY {
        return Some(Fault::Length);
    }
    let out_of_form = first_cart(copy, sizes::CART, |cart, unit| !is_cart(cart, unit));
    let long = || first_cart(copy, sizes::CART, |_, unit| usize::from(unit[1]) > sizes::OLD_TITLE);
    out_of_form.map(Fault::Form).or_else(|| long().map(Fault::LongTitle))
}

// The first of these carts, of so many bytes each, of which this holds.
fn first_cart(carts: &[u8], size: usize, holds: impl Fn(u16, &[u8]) -> bool) -> Option<u16> {
    (1..).zip(carts.chunks_exact(size)).find(|(cart, unit)| holds(*cart, unit)).map(|(cart, _)| cart)
}

// Whether the place with this number is empty, or holds a cart of the form.
fn is_cart(number: u16, unit: &[u8]) -> bool {
    let zero = |bytes: &[u8]| bytes.iter().all(|byte| *byte == 0);
    let (head, title) = unit.split_at(HEAD);
    let (letters, rest) = title.split_at(title.len().min(usize::from(head[1])));
    let numbers = head[2..4] == number.to_le_bytes() && !zero(&head[4..8]) && !zero(&head[8..12]) && zero(&head[12..]);
    let whole = !letters.is_empty() && letters.len() == usize::from(head[1]) && zero(rest);
    zero(unit) || (head[0] == 1 && numbers && whole && letters.iter().all(|letter| (32..=126).contains(letter)))
}

impl fmt::Display for Fault {
    fn fmt(&self, f: &mut fmt::Formatter<'_>) -> fmt::Result {
        match self {
            Fault::Length => write!(f, "it has another length"),
            Fault::Mark => write!(f, "it does not begin with CART32"),
            Fault::Form(cart) => write!(f, "cart {cart} is out of form"),
            Fault::LongTitle(cart) => write!(f, "cart {cart} has a title of more than {} letters", sizes::OLD_TITLE),
        }
    }
}
