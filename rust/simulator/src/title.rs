//! A title: 1 to 64 bytes from 32 to 126, kept whole.

use crate::bytes::all_zero;

pub const TITLE_BYTES: usize = 64;
pub const TITLE_AT: usize = 16;
const SPACE: u8 = 32;

/// The bytes after the title are zero, so equal titles are equal values.
#[derive(Clone, Copy, PartialEq, Eq, Debug)]
pub struct Title {
    length: u8,
    bytes: [u8; TITLE_BYTES],
}

impl Title {
    /// The title of these letters, or `None` when they are no title.
    pub fn of(letters: &[u8]) -> Option<Title> {
        let mut bytes = [0; TITLE_BYTES];
        bytes.get_mut(..letters.len())?.copy_from_slice(letters);
        let length = u8::try_from(letters.len()).expect("at most 64 letters");
        let whole = length >= 1 && letters.iter().all(|byte| (32..=126).contains(byte));
        whole.then_some(Title { length, bytes })
    }

    /// The title of an 80-byte unit: length in byte 1, title in bytes 16 to 79.
    pub fn decode(unit: &[u8]) -> Option<Title> {
        let (letters, rest) = unit[TITLE_AT..].split_at_checked(usize::from(unit[1]))?;
        all_zero(rest).then(|| Title::of(letters)).flatten()
    }

    pub fn encode(&self, unit: &mut [u8]) {
        unit[1] = self.length;
        unit[TITLE_AT..].copy_from_slice(&self.bytes);
    }

    /// Its letters, as many as its length.
    pub fn letters(&self) -> &[u8] {
        &self.bytes[..usize::from(self.length)]
    }

    /// Whether a unit has neither title length nor title.
    pub fn absent(unit: &[u8]) -> bool {
        unit[1] == 0 && all_zero(&unit[TITLE_AT..])
    }

    /// Whether a unit's title begins or ends with a space. Out of form, a title
    /// has as many bytes as byte 1 says, and at most 64.
    pub fn spaced(unit: &[u8]) -> bool {
        let length = usize::from(unit[1]).min(TITLE_BYTES);
        let text = &unit[TITLE_AT..TITLE_AT + length];
        text.first() == Some(&SPACE) || text.last() == Some(&SPACE)
    }
}

/// Whether two titles are the same in matching: length first, then letter by letter.
pub fn same_title(one: &[u8], other: &[u8]) -> bool {
    one.len() == other.len() && one.iter().zip(other).all(|(one, other)| same_letter(*one, *other))
}

/// Whether two letters are the same in matching. No other place says so.
pub fn same_letter(one: u8, other: u8) -> bool {
    one == other
}
