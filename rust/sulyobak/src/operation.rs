use crate::title::Title;
use sulyobak_sys::sizes;

/// An edit of one cart. A commit has one to eight, and all of them act or none.
///
/// Numbers and titles are passed on as they are: the engine refuses what is out of range
/// ([`Refusal::Operation`](crate::Refusal::Operation)), and a title that begins or ends with a space
/// ([`Refusal::SpacedTitle`](crate::Refusal::SpacedTitle)).
///
/// ```
/// use sulyobak::Operation;
///
/// let bytes = Operation::Recut { cart: 7, audio: 502, milliseconds: 9_000 }.to_bytes();
/// assert_eq!(bytes[..12], [3, 0, 7, 0, 0xf6, 1, 0, 0, 0x28, 0x23, 0, 0]);
/// ```
#[derive(Clone, Copy, Debug, PartialEq, Eq, Hash)]
pub enum Operation {
    /// Makes a cart that is empty.
    New {
        /// The cart's number, 1 to 128.
        cart: u16,
        /// Its title, without a space at either end.
        title: Title,
        /// The number of its audio, at least 1.
        audio: u32,
        /// Its length in milliseconds, at least 1.
        milliseconds: u32,
    },
    /// Gives a cart that is held another title; its audio stays.
    Retitle {
        /// The cart's number, 1 to 128.
        cart: u16,
        /// The new title, without a space at either end.
        title: Title,
    },
    /// Gives a cart that is held other audio; its title stays.
    Recut {
        /// The cart's number, 1 to 128.
        cart: u16,
        /// The number of the new audio, at least 1.
        audio: u32,
        /// Its length in milliseconds, at least 1.
        milliseconds: u32,
    },
    /// Makes a cart that is held empty.
    Withdraw {
        /// The cart's number, 1 to 128.
        cart: u16,
    },
}

impl Operation {
    /// The 80 bytes that the engine is passed.
    pub fn to_bytes(&self) -> [u8; sizes::CART] {
        let mut bytes = [0; sizes::CART];
        let (kind, cart) = match *self {
            Operation::New { cart, title, audio, milliseconds } => {
                title.put(&mut bytes);
                put_audio(&mut bytes, audio, milliseconds);
                (1, cart)
            }
            Operation::Retitle { cart, title } => {
                title.put(&mut bytes);
                (2, cart)
            }
            Operation::Recut { cart, audio, milliseconds } => {
                put_audio(&mut bytes, audio, milliseconds);
                (3, cart)
            }
            Operation::Withdraw { cart } => (4, cart),
        };
        bytes[0] = kind;
        bytes[2..4].copy_from_slice(&cart.to_le_bytes());
        bytes
    }
}

// The bytes of operations, one after the other.
pub(crate) fn bytes_of(operations: &[Operation]) -> Vec<u8> {
    operations.iter().flat_map(Operation::to_bytes).collect()
}

fn put_audio(bytes: &mut [u8; sizes::CART], audio: u32, milliseconds: u32) {
    bytes[4..8].copy_from_slice(&audio.to_le_bytes());
    bytes[8..12].copy_from_slice(&milliseconds.to_le_bytes());
}
