use crate::title::Title;
use std::fmt;
use sulyobak_sys::sizes;

/// A cart that is held, as a read or a van's copy shows it.
#[derive(Clone, Copy, Debug, PartialEq, Eq, Hash)]
pub struct Cart {
    /// Its number, 1 to 128.
    pub number: u16,
    /// Its title, whole.
    pub title: Title,
    /// The number of its audio.
    pub audio: u32,
    /// Its length in milliseconds.
    pub milliseconds: u32,
}

impl Cart {
    /// The cart in 80 bytes of a copy or of output; none for an empty cart.
    ///
    /// ```
    /// assert_eq!(sulyobak::Cart::from_bytes(&[0; 80]), None);
    /// ```
    pub fn from_bytes(bytes: &[u8; sizes::CART]) -> Option<Cart> {
        if bytes[0] != 1 {
            return None;
        }
        Some(Cart {
            number: u16::from_le_bytes([bytes[2], bytes[3]]),
            title: Title::get(bytes)?,
            audio: u32::from_le_bytes([bytes[4], bytes[5], bytes[6], bytes[7]]),
            milliseconds: u32::from_le_bytes([bytes[8], bytes[9], bytes[10], bytes[11]]),
        })
    }

    // The same from a slice of 80 bytes.
    pub(crate) fn from_slice(place: &[u8]) -> Option<Cart> {
        place.try_into().ok().and_then(Cart::from_bytes)
    }

    // The carts of an answered read's output, one for each place.
    pub(crate) fn all(output: &[u8]) -> Vec<Option<Cart>> {
        output.chunks_exact(sizes::CART).map(Cart::from_slice).collect()
    }
}

impl fmt::Display for Cart {
    fn fmt(&self, f: &mut fmt::Formatter<'_>) -> fmt::Result {
        write!(f, "cart {} \"{}\", audio {}, {} ms", self.number, self.title, self.audio, self.milliseconds)
    }
}
