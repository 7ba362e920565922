use crate::title::Title;
use std::error::Error;
use std::fmt;
use sulyobak_sys::sizes;

/// What a read or forward asks for: carts by their numbers, or the cart with a title.
#[derive(Clone, Copy, Debug, PartialEq, Eq, Hash)]
pub enum Request {
    /// Carts by their numbers; the answer has a place for each.
    Numbers(Numbers),
    /// The one cart that has exactly this title; the answer has one place. The title may begin or end with a space, as a cart's from
    /// before version 3 may.
    Title(Title),
}

impl Request {
    /// Asks for one cart by its number.
    pub fn cart(number: u16) -> Request {
        let mut carts = [0; sizes::NUMBERS];
        carts[0] = number;
        Request::Numbers(Numbers { carts, count: 1 })
    }

    /// Asks for 1 to 32 carts by their numbers.
    ///
    /// ```
    /// use sulyobak::{NumbersError, Request};
    ///
    /// assert_eq!(Request::carts(&[7, 8])?.places(), 2);
    /// assert!(Request::carts(&[1; 33]).is_err());
    /// # Ok::<(), NumbersError>(())
    /// ```
    pub fn carts(numbers: &[u16]) -> Result<Request, NumbersError> {
        Numbers::new(numbers).map(Request::Numbers)
    }

    /// How many places the answer has: each is 80 bytes of output.
    pub fn places(&self) -> usize {
        match self {
            Request::Numbers(numbers) => numbers.as_slice().len(),
            Request::Title(_) => 1,
        }
    }

    /// The 80 bytes that the engine is passed.
    pub fn to_bytes(&self) -> [u8; sizes::CART] {
        let mut bytes = [0; sizes::CART];
        match self {
            Request::Numbers(numbers) => {
                bytes[0] = 1;
                bytes[1] = numbers.count;
                for (place, cart) in bytes[16..].chunks_exact_mut(2).zip(numbers.as_slice()) {
                    place.copy_from_slice(&cart.to_le_bytes());
                }
            }
            Request::Title(title) => {
                bytes[0] = 2;
                title.put(&mut bytes);
            }
        }
        bytes
    }

    // How many places the read in these 80 bytes of a session asks for; 0 where none is waiting.
    pub(crate) fn places_in(session: &[u8]) -> usize {
        match session {
            [1, count, ..] => usize::from(*count),
            [2, ..] => 1,
            _ => 0,
        }
    }
}

impl From<Title> for Request {
    fn from(title: Title) -> Request {
        Request::Title(title)
    }
}

impl From<Numbers> for Request {
    fn from(numbers: Numbers) -> Request {
        Request::Numbers(numbers)
    }
}

/// One to 32 cart numbers. A list that does not fit is refused, never cut. Whether each number is 1 to 128 is for the engine
/// to say ([`Refusal::Request`](crate::Refusal::Request)).
#[derive(Clone, Copy, PartialEq, Eq, Hash)]
pub struct Numbers {
    carts: [u16; sizes::NUMBERS],
    count: u8,
}

impl Numbers {
    /// The list of these numbers.
    pub fn new(carts: &[u16]) -> Result<Numbers, NumbersError> {
        if carts.is_empty() || carts.len() > sizes::NUMBERS {
            return Err(NumbersError { count: carts.len() });
        }
        let mut list = [0; sizes::NUMBERS];
        list[..carts.len()].copy_from_slice(carts);
        Ok(Numbers { carts: list, count: carts.len() as u8 })
    }

    /// The numbers, in the order asked.
    pub fn as_slice(&self) -> &[u16] {
        &self.carts[..usize::from(self.count)]
    }
}

impl fmt::Debug for Numbers {
    fn fmt(&self, f: &mut fmt::Formatter<'_>) -> fmt::Result {
        f.debug_list().entries(self.as_slice()).finish()
    }
}

/// A read asks for 1 to 32 cart numbers; this list is empty or longer.
#[derive(Clone, Copy, Debug, PartialEq, Eq, Hash)]
pub struct NumbersError {
    /// How many numbers the list has.
    pub count: usize,
}

impl fmt::Display for NumbersError {
    fn fmt(&self, f: &mut fmt::Formatter<'_>) -> fmt::Result {
        write!(f, "a read asks for 1 to {} cart numbers, not for {}", sizes::NUMBERS, self.count)
    }
}

impl Error for NumbersError {}
