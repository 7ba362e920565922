//! The title search of request S-5: lengths first, then letters, which are counted.
//! It looks at the bytes of one copy as they are, of the layout or not.

use crate::sizes::{COPY, UNIT};
use crate::title::{TITLE_AT, TITLE_BYTES, same_letter, same_title};

const NONE: u32 = 0;
const ONE: u32 = 1;
const SEVERAL: u32 = 2;
const WRONG_LENGTH: u32 = 3;

/// What a title search hands back. Words without a meaning are zero.
#[repr(C)]
#[derive(Clone, Copy, PartialEq, Eq, Debug, Default)]
pub struct Search {
    /// 0 none, 1 one, 2 several, 3 a wrong length.
    pub kind: u32,
    /// The number of the one cart, or the count of several.
    pub value: u32,
    /// How many letters were compared.
    pub letters: u32,
}

/// Search: which of a copy's 128 carts have the title, and how many letters were
/// compared. Any bytes have an answer; a copy of other than 10,240 bytes or a title of
/// other than 1 to 64 is a wrong length.
pub fn search(copy: &[u8], title: &[u8]) -> Search {
    if copy.len() != COPY || !(1..=TITLE_BYTES).contains(&title.len()) {
        return Search { kind: WRONG_LENGTH, value: 0, letters: 0 };
    }
    let (mut titled, mut letters) = (Vec::new(), 0);
    for (number, cart) in (1..).zip(copy.chunks_exact(UNIT)) {
        if !held(cart) || usize::from(cart[1]) != title.len() {
            continue;
        }
        let kept = &cart[TITLE_AT..TITLE_AT + title.len()];
        letters += letters_compared(kept, title);
        if same_title(kept, title) {
            titled.push(number);
        }
    }
    let (kind, value) = match titled[..] {
        [] => (NONE, 0),
        [number] => (ONE, number),
        _ => (SEVERAL, as_u32(titled.len())),
    };
    Search { kind, value, letters: as_u32(letters) }
}

fn held(cart: &[u8]) -> bool {
    cart[0] == 1
}

/// S-5, of two titles of one length: "those up to and including the first that differs
/// (all if none does)".
fn letters_compared(kept: &[u8], asked: &[u8]) -> usize {
    let first_that_differs = kept.iter().zip(asked).position(|(kept, asked)| !same_letter(*kept, *asked));
    match first_that_differs {
        Some(place) => place + 1,
        None => asked.len(),
    }
}

fn as_u32(count: usize) -> u32 {
    u32::try_from(count).expect("at most 8,192")
}
