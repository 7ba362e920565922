//! What is met of title searches (02's S-5).

use crate::coverage::Coverage;
use crate::keys::{NONE, ONE, SEARCH_AFTER, SEARCH_BOTH, SEARCH_BYTE, SEARCH_CART, SEARCH_COPY, SEARCH_DIFFERS, SEARCH_FOUND};
use crate::keys::{SEARCH_BYTE_0, SEARCH_LAST, SEARCH_LENGTH, SEARCH_LENGTH_BYTE, SEARCH_LETTERS, SEARCH_NUMBER, SEARCH_TITLE};
use crate::sought;
use simulator::{COPY, Search, UNIT};

impl Coverage {
    pub fn note_search(&mut self, copy: &[u8], title: &[u8], search: Search) {
        self.searches += 1;
        let end = NONE + search.kind;
        match (copy.len() == COPY, (1..=64).contains(&title.len())) {
            (true, true) => self.note_searched(copy, title, search, end),
            (true, false) => self.count((SEARCH_TITLE, title.len() as u32, end)),
            (false, true) => self.count((SEARCH_COPY, copy.len() as u32, end)),
            (false, false) => self.count((SEARCH_BOTH, title.len() as u32, end)),
        }
    }

    /// Both lengths are right.
    fn note_searched(&mut self, copy: &[u8], title: &[u8], search: Search, end: u32) {
        self.count((SEARCH_TITLE, title.len() as u32, end));
        self.count((SEARCH_LETTERS, search.letters, end));
        if end == ONE {
            self.count((SEARCH_CART, search.value, end));
            for byte in title.iter().filter(|byte| !(32..=126).contains(*byte)) {
                self.count((SEARCH_BYTE, u32::from(*byte), end));
            }
        } else {
            self.count((SEARCH_FOUND, search.value, end));
        }
        for (number, cart) in (1..).zip(copy.chunks_exact(UNIT)) {
            self.note_cart(number, cart, title, end);
        }
    }

    fn note_cart(&mut self, number: u16, cart: &[u8], title: &[u8], end: u32) {
        let (asked, length) = (title.len(), usize::from(cart[1]));
        let shared = sought::shared(cart, title);
        match (cart[0], shared == asked) {
            (1, true) if length == asked => self.note_match(number, cart, end),
            (1, false) if length == asked => self.note_difference(shared as u32 + 1, asked as u32, end),
            (1, _) if shared >= length.min(asked) => {
                self.count((SEARCH_LENGTH, (length as i64 - asked as i64).clamp(-2, 2) as u32, end));
                self.count((SEARCH_LENGTH_BYTE, length as u32, end));
            }
            (byte, true) if length == asked => self.count((SEARCH_BYTE_0, u32::from(byte), end)),
            _ => {}
        }
    }

    /// A cart that has the title.
    fn note_match(&mut self, number: u16, cart: &[u8], end: u32) {
        if cart[2..4] != number.to_le_bytes() {
            self.count((SEARCH_NUMBER, 0, end));
        }
        if cart[16 + usize::from(cart[1])..].iter().any(|byte| *byte != 0) {
            self.count((SEARCH_AFTER, 0, end));
        }
    }

    /// A held cart of the length whose first differing letter is this one.
    fn note_difference(&mut self, letter: u32, length: u32, end: u32) {
        if length == 64 {
            self.count((SEARCH_DIFFERS, letter, end));
        }
        if letter == length {
            self.count((SEARCH_LAST, length, end));
        }
    }
}

#[cfg(test)]
mod tests {
    use super::*;

    /// What a search for "abc" meets in a copy whose second cart has these first bytes and this title.
    fn met(head: [u8; 4], letters: &[u8]) -> Coverage {
        let mut copy = vec![0; COPY];
        copy[UNIT..UNIT + 4].copy_from_slice(&head);
        copy[UNIT + 16..UNIT + 16 + letters.len()].copy_from_slice(letters);
        let mut coverage = Coverage::default();
        coverage.note_search(&copy, b"abc", simulator::search(&copy, b"abc"));
        coverage
    }

    #[test]
    fn a_cart_is_counted_by_what_it_has_of_the_title() {
        let keys = [
            (SEARCH_CART, 2, ONE),
            (SEARCH_NUMBER, 0, ONE),
            (SEARCH_AFTER, 0, ONE),
            (SEARCH_LAST, 3, NONE),
            (SEARCH_LENGTH, 1, NONE),
            (SEARCH_LENGTH, u32::MAX, NONE),
            (SEARCH_BYTE_0, 0, NONE),
            (SEARCH_BYTE_0, 2, NONE),
        ];
        let cases: [([u8; 4], &[u8], &[usize]); 8] = [
            ([1, 3, 2, 0], b"abc", &[0]),
            ([1, 3, 2, 1], b"abc", &[0, 1]),
            ([1, 3, 2, 0], b"abcd", &[0, 2]),
            ([1, 3, 2, 0], b"abd", &[3]),
            ([1, 4, 2, 0], b"abcd", &[4]),
            ([1, 2, 2, 0], b"ab", &[5]),
            ([0, 3, 2, 0], b"abc", &[6]),
            ([2, 3, 2, 0], b"abc", &[7]),
        ];
        for (head, letters, expected) in cases {
            let coverage = met(head, letters);
            let counted: Vec<usize> = (0..keys.len()).filter(|at| coverage.met(&keys[*at]) == 1).collect();
            assert_eq!(counted, expected, "{head:?}");
        }
    }
}
