use crate::answer::{Received, Refusal};
use crate::call::other_version;
use crate::cart::Cart;
use crate::memory::Bytes;
use crate::operation::Operation;
use crate::version;
use std::fmt;
use sulyobak_sys::{self as sys, sizes};

/// A copy of the library in an outside-broadcast van, beyond a link that loses, repeats and reorders messages (and damages none): the copy,
/// and how many transactions it has applied.
///
/// With messages of one log, from a fresh van on, the copy is what the log's first [`applied`](Van::applied) transactions make, whatever the
/// link loses, repeats or reorders.
///
/// ```
/// use sulyobak::{Library, Operation, Received, Refusal, Title, Van};
///
/// # fn main() -> Result<(), Box<dyn std::error::Error>> {
/// let mut library = Library::new(1, &[1])?;
/// library.commit(1, &[Operation::New { cart: 7, title: Title::new("Top hour A")?, audio: 501, milliseconds: 8_000 }])?;
/// library.commit(1, &[Operation::Recut { cart: 7, audio: 502, milliseconds: 9_000 }])?;
/// let (first, second) = (library.van_write(1)?, library.van_write(2)?);
///
/// let mut van = Van::new();
/// assert_eq!(van.receive(second.as_bytes()), Err(Refusal::MessageAhead), "the first was lost");
/// assert_eq!(van.receive(first.as_bytes())?, Received::Applied { number: 1 });
/// assert_eq!(van.receive(first.as_bytes())?, Received::Held { number: 1 }, "a repeat");
/// assert_eq!(van.cart(7).map(|cart| cart.audio), Some(501));
/// assert_eq!(van.receive(second.as_bytes())?, Received::Applied { number: 2 }, "sent again");
/// assert_eq!(van.cart(7).map(|cart| cart.audio), Some(502));
/// assert_eq!(van.applied(), library.control().commits);
/// # Ok(())
/// # }
/// ```
#[derive(Clone, PartialEq, Eq)]
pub struct Van {
    copy: Box<[u8]>,
    applied: u32,
}

impl Van {
    /// A fresh van: every cart empty, nothing applied.
    pub fn new() -> Van {
        Van { copy: vec![0; sizes::COPY].into_boxed_slice(), applied: 0 }
    }

    /// The van with this copy, which has applied so many transactions: what [`copy`](Van::copy) and [`applied`](Van::applied) gave when it
    /// was stored. A copy that is not [`sizes::COPY`] bytes of the layout is refused ([`Refusal::Message`]).
    ///
    /// Whether copy and number belong together is not seen, nor whether the copy is what a log makes.
    ///
    /// ```
    /// use sulyobak::{Refusal, Van};
    ///
    /// let van = Van::new();
    /// let (mut copy, applied): (Box<[u8]>, u32) = (van.copy().into(), van.applied());
    /// assert_eq!(Van::from_parts(copy.clone(), applied)?, van);
    /// copy[0] = 9;
    /// assert_eq!(Van::from_parts(copy, applied), Err(Refusal::Message));
    /// # Ok::<(), Refusal>(())
    /// ```
    pub fn from_parts(copy: Box<[u8]>, applied: u32) -> Result<Van, Refusal> {
        let mut van = Van { copy, applied: 1 };
        van.receive(&message_one())?; // held where the copy is of the layout
        van.applied = applied;
        Ok(van)
    }

    /// The copy, to be stored: [`sizes::COPY`] bytes.
    pub fn copy(&self) -> &[u8] {
        &self.copy
    }

    /// How many transactions the copy has applied. The message that it needs next is of the transaction after these.
    pub fn applied(&self) -> u32 {
        self.applied
    }

    /// Receives a message: applies the transaction after those that are applied. One that the van holds already changes nothing.
    ///
    /// A message that comes too soon is refused ([`Refusal::MessageAhead`]): have it sent again after those before it. So is one that is
    /// out of form ([`Refusal::Message`]). A refusal changes nothing. (A message that was damaged and is still of the form cannot be told.)
    pub fn receive(&mut self, message: &[u8]) -> Result<Received, Refusal> {
        version::check()?;
        let copy = &mut self.copy;
        // SAFETY: each pointer comes with its length from one slice, which stays borrowed for the whole call; the copy, which is written,
        // is borrowed mutably. The engine accepts any bytes and any numbers, keeps no pointer, and does not unwind.
        let answer = unsafe { sys::sulyobak_van_receive(copy.as_mut_ptr(), copy.len(), self.applied, message.as_ptr(), message.len()) };
        self.applied = answer.applied;
        match answer.kind {
            sys::DONE => Ok(Received::Applied { number: answer.value }),
            sys::HELD => Ok(Received::Held { number: answer.value }),
            sys::REFUSED => Err(Refusal::from_number(answer.value)),
            kind => other_version(kind),
        }
    }

    /// The cart with this number; none where it is empty, or the number outside 1 to 128.
    pub fn cart(&self, number: u16) -> Option<Cart> {
        let place = usize::from(number).checked_sub(1)?;
        self.copy.chunks_exact(sizes::CART).nth(place).and_then(Cart::from_slice)
    }

    /// The carts that are held, by their numbers.
    pub fn carts(&self) -> impl Iterator<Item = Cart> + '_ {
        self.copy.chunks_exact(sizes::CART).filter_map(Cart::from_slice)
    }
}

// A message of the form, of transaction 1: withdraw cart 1. A van that has applied 1 holds it, or is refused because of its copy.
fn message_one() -> [u8; sizes::MESSAGE_HEAD + sizes::CART] {
    let mut message = [0; sizes::MESSAGE_HEAD + sizes::CART];
    message[0] = 1;
    message[2] = 1;
    message[sizes::MESSAGE_HEAD..].copy_from_slice(&Operation::Withdraw { cart: 1 }.to_bytes());
    message
}

impl Default for Van {
    fn default() -> Van {
        Van::new()
    }
}

impl fmt::Debug for Van {
    fn fmt(&self, f: &mut fmt::Formatter<'_>) -> fmt::Result {
        f.debug_struct("Van").field("copy", &Bytes(self.copy.len())).field("applied", &self.applied).finish()
    }
}
