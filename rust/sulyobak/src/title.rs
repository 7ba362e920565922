use std::error::Error;
use std::fmt;
use std::str::FromStr;
use sulyobak_sys::sizes;

/// A cart's title: 1 to 64 printable ASCII letters (space to `~`).
///
/// A title is kept whole or refused, never cut: two titles that differ only in their last letter stay different. A commit refuses a
/// title that begins or ends with a space ([`Refusal::SpacedTitle`](crate::Refusal::SpacedTitle)); a read may ask for one.
///
/// ```
/// use sulyobak::{Title, TitleError};
///
/// assert_eq!(Title::new("Top hour A").unwrap().as_str(), "Top hour A");
/// assert_eq!(Title::new(&"x".repeat(65)), Err(TitleError::TooLong { length: 65 }));
/// assert_eq!(Title::new(""), Err(TitleError::Empty));
/// assert_eq!(Title::new("caf\u{e9}"), Err(TitleError::Unprintable { at: 3 }));
/// ```
#[derive(Clone, Copy, PartialEq, Eq, PartialOrd, Ord, Hash)]
pub struct Title {
    // Zeros follow the letters, so that equal titles are equal here and order is that of the letters.
    letters: [u8; sizes::TITLE],
    length: u8,
}

impl Title {
    /// The title with these letters, or the reason why there is none. Letters are counted as people do: an é is one letter, though not a
    /// printable ASCII one.
    pub fn new(text: &str) -> Result<Title, TitleError> {
        Title::from_letters(text.chars().map(|letter| u8::try_from(letter).unwrap_or(0)))
    }

    /// The same from bytes, each of them a letter.
    pub fn from_bytes(text: &[u8]) -> Result<Title, TitleError> {
        Title::from_letters(text.iter().copied())
    }

    fn from_letters(text: impl Iterator<Item = u8> + Clone) -> Result<Title, TitleError> {
        let length = text.clone().count();
        if length == 0 {
            return Err(TitleError::Empty);
        }
        if length > sizes::TITLE {
            return Err(TitleError::TooLong { length });
        }
        if let Some(at) = text.clone().position(|letter| !(32..=126).contains(&letter)) {
            return Err(TitleError::Unprintable { at });
        }
        let mut letters = [0; sizes::TITLE];
        for (place, letter) in letters.iter_mut().zip(text) {
            *place = letter;
        }
        Ok(Title { letters, length: length as u8 })
    }

    /// The letters as bytes.
    pub fn as_bytes(&self) -> &[u8] {
        &self.letters[..usize::from(self.length)]
    }

    /// The letters as text.
    pub fn as_str(&self) -> &str {
        // Every letter is ASCII, by the constructor.
        std::str::from_utf8(self.as_bytes()).unwrap_or_default()
    }

    /// How many letters: 1 to 64.
    #[allow(clippy::len_without_is_empty)]
    pub fn len(&self) -> usize {
        usize::from(self.length)
    }

    // Writes length and letters where operations, requests and carts have them.
    pub(crate) fn put(&self, bytes: &mut [u8; sizes::CART]) {
        bytes[1] = self.length;
        bytes[16..].copy_from_slice(&self.letters);
    }

    // The title of a cart's 80 bytes.
    pub(crate) fn get(bytes: &[u8; sizes::CART]) -> Option<Title> {
        bytes[16..].get(..usize::from(bytes[1])).and_then(|letters| Title::from_bytes(letters).ok())
    }
}

impl fmt::Display for Title {
    fn fmt(&self, f: &mut fmt::Formatter<'_>) -> fmt::Result {
        f.pad(self.as_str())
    }
}

impl fmt::Debug for Title {
    fn fmt(&self, f: &mut fmt::Formatter<'_>) -> fmt::Result {
        write!(f, "Title({:?})", self.as_str())
    }
}

impl FromStr for Title {
    type Err = TitleError;

    fn from_str(text: &str) -> Result<Title, TitleError> {
        Title::new(text)
    }
}

/// Why some letters are no title.
#[derive(Clone, Copy, Debug, PartialEq, Eq, Hash)]
pub enum TitleError {
    /// There are no letters.
    Empty,
    /// There are more than 64 letters.
    TooLong {
        /// How many letters there are.
        length: usize,
    },
    /// A letter is no printable ASCII letter (space to `~`).
    Unprintable {
        /// The letter's place, counted from 0.
        at: usize,
    },
}

impl fmt::Display for TitleError {
    fn fmt(&self, f: &mut fmt::Formatter<'_>) -> fmt::Result {
        match self {
            TitleError::Empty => write!(f, "the title is empty"),
            TitleError::TooLong { length } => write!(f, "the title has {length} letters; at most {} fit, and it is not cut", sizes::TITLE),
            TitleError::Unprintable { at } => write!(f, "letter {} of the title is no printable ASCII letter", at + 1),
        }
    }
}

impl Error for TitleError {}

#[cfg(test)]
mod tests {
    use super::{Title, TitleError};

    #[test]
    fn length_and_place_are_told_in_letters() {
        let accented = "é".repeat(40);
        assert_eq!(Title::new(&accented), Err(TitleError::Unprintable { at: 0 }));
        assert_eq!(Title::new(&format!("été{}", "x".repeat(62))), Err(TitleError::TooLong { length: 65 }));
        let error = Title::new("Péter").unwrap_err();
        assert_eq!(error.to_string(), "letter 2 of the title is no printable ASCII letter");
        assert_eq!(Title::from_bytes(&[b'x'; 65]), Err(TitleError::TooLong { length: 65 }));
        assert_eq!(Title::from_bytes(b"ab\x7f"), Err(TitleError::Unprintable { at: 2 }));
        assert_eq!(Title::new("\u{e9}").map(|title| title.len()), Err(TitleError::Unprintable { at: 0 }));
    }
}
