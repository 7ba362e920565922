//! The search of a copy for a title by hand: lengths first, then the letters up to the first that differs (02's S-5).

use crate::lanes::Lanes;
use simulator::{COPY, Search, UNIT};

const LETTERS: usize = 64;

/// How many carts have the title.
pub fn found(search: Search) -> u32 {
    if search.kind == 1 { 1 } else { search.value }
}

/// The search with one way to tell how many first letters of a cart are those of the title.
#[inline(always)]
fn search(copy: &[u8], title: &[u8], equal: impl Fn(&[u8; UNIT]) -> usize) -> Search {
    if copy.len() != COPY || !(1..=LETTERS).contains(&title.len()) {
        return Search { kind: 3, ..Search::default() };
    }
    let (mut found, mut last, mut letters) = (0, 0, 0);
    for (number, cart) in (1..).zip(copy.as_chunks::<UNIT>().0) {
        if cart[0] != 1 || usize::from(cart[1]) != title.len() {
            continue;
        }
        let equal = equal(cart);
        letters += title.len().min(equal + 1);
        if equal >= title.len() {
            (found, last) = (found + 1, number);
        }
    }
    let value = if found == 1 { last } else { found };
    Search { kind: found.min(2), value, letters: letters as u32 }
}

/// In plain Rust: a loop over the letters that ends at the first that differs.
#[inline(never)]
pub fn plain(copy: &[u8], title: &[u8]) -> Search {
    search(copy, title, |cart| cart[16..].iter().zip(title).take_while(|(one, other)| one == other).count())
}

/// The floor: 16 letters at a time by SSE2, and the place of the first bit of those that differ.
#[inline(never)]
pub fn floor(copy: &[u8], title: &[u8]) -> Search {
    let mut asked = [0; LETTERS];
    let length = title.len().min(LETTERS);
    asked[..length].copy_from_slice(&title[..length]);
    let parts = [0, 16, 32, 48].map(|at| Lanes::load(&asked, at));
    search(copy, title, |cart| {
        for (at, part) in (0..length).step_by(16).zip(parts) {
            let differing = Lanes::load(cart, 16 + at).differing(part);
            if differing != 0 {
                return at + differing.trailing_zeros() as usize;
            }
        }
        LETTERS
    })
}
