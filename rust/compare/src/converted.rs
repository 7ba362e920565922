//! What is met of conversions (02's S-10).

use crate::conversion::{CART, Conversion, Faults, INPUT_LENGTH, MARK};
use crate::coverage::{Coverage, outcome};
use crate::keys::{Converting, DONE, FROM_OLD, FROM_OLD_MARK, TO_OLD};
use crate::keys::{TO_OLD_FIRST_LONGER, TO_OLD_LAST_LONGER, TO_OLD_LONGER, TO_OLD_LONGER_OUTPUT};
use crate::old::{self, Form};
use simulator::{Answer, CARTS};
use std::collections::BTreeSet;

/// Audio numbers and lengths that are counted: the least, the most, and the least of each byte.
pub const AMOUNTS: [u32; 5] = [1, 256, 65_536, 1 << 24, u32::MAX];

impl Coverage {
    /// `conversion` is what was lent.
    pub fn note_conversion(&mut self, conversion: &Conversion, answer: &Answer) {
        self.conversions += 1;
        let of = match conversion.from {
            Form::Old => &FROM_OLD,
            Form::Ours => &TO_OLD,
        };
        let (faults, end) = (conversion.faults(), outcome(answer));
        self.count((of.name, 0, end));
        if let [row, other] = faults.rows()[..] {
            self.count_pair((of.name, row, other));
        }
        match faults.reasons[..] {
            [] => self.note_convertible(of, conversion, &faults, end),
            [reason] => self.note_reason(of, reason, conversion, &faults, end),
            _ => {}
        }
    }

    /// No reason for 22.
    fn note_convertible(&mut self, of: &Converting, conversion: &Conversion, faults: &Faults, end: u32) {
        self.count((of.input, conversion.input.len() as u32, end));
        self.count((of.output, conversion.output.len() as u32, end));
        self.note_carts(of, conversion, end);
        if let [cart] = faults.longer[..] {
            self.count((TO_OLD_LONGER, cart as u32, end));
        }
        if end == DONE {
            self.backs += 1;
            self.count((of.back, 0, end));
        }
        if !faults.longer.is_empty() {
            self.count((TO_OLD_LONGER_OUTPUT, conversion.output.len() as u32, end));
        }
    }

    /// Each value that a held cart has is counted once.
    fn note_carts(&mut self, of: &Converting, conversion: &Conversion, end: u32) {
        let held: Vec<&[u8]> = conversion.from.carts(conversion.input.lent()).map(|(_, cart)| cart).filter(|cart| cart[0] == 1).collect();
        let titles = || held.iter().map(|cart| old::title(cart));
        let longest = titles().map(<[u8]>::len).max().unwrap_or(0);
        self.count((of.held, held.len() as u32, end));
        self.count((of.longest, longest as u32, end));
        let of_length = |title: &[u8]| title.len() as u32;
        self.count_each(of.title, titles().map(of_length), end);
        self.count_each(of.space_first, titles().filter(|title| title.first() == Some(&b' ')).map(of_length), end);
        self.count_each(of.space_last, titles().filter(|title| title.last() == Some(&b' ')).map(of_length), end);
        let amounts = |at: usize| held.iter().map(move |cart| word(&cart[at..at + 4])).filter(|amount| AMOUNTS.contains(amount));
        self.count_each(of.audio, amounts(4), end);
        self.count_each(of.milliseconds, amounts(8), end);
        let has = |title: &[u8], is: fn(&u8) -> bool| title.iter().any(is);
        if titles().any(|title| has(title, u8::is_ascii_lowercase) && has(title, u8::is_ascii_uppercase)) {
            self.count((of.cases, 0, end));
        }
    }

    fn count_each(&mut self, subject: &'static str, numbers: impl Iterator<Item = u32>, end: u32) {
        numbers.collect::<BTreeSet<u32>>().into_iter().for_each(|number| self.count((subject, number, end)));
    }

    /// One reason alone for 22.
    fn note_reason(&mut self, of: &Converting, reason: usize, conversion: &Conversion, faults: &Faults, end: u32) {
        let (input, output, is_longer) = (conversion.input.lent(), conversion.output.len() as u32, !faults.longer.is_empty());
        self.count((of.reasons[reason], u32::from(is_longer), end));
        match reason {
            INPUT_LENGTH => self.count((of.input, input.len() as u32, end)),
            MARK => self.note_mark(input, end),
            CART => self.note_cart_out_of_form(of, conversion, faults, end),
            _ if is_longer => self.count((TO_OLD_LONGER_OUTPUT, output, end)),
            _ => self.count((of.output, output, end)),
        }
    }

    fn note_mark(&mut self, input: &[u8], end: u32) {
        let others = || (1..).zip(input.iter().zip(Form::Old.mark())).filter(|(_, (one, other))| one != other);
        if let (1, Some((place, _))) = (others().count(), others().next()) {
            self.count((FROM_OLD_MARK, place, end));
        }
    }

    fn note_cart_out_of_form(&mut self, of: &Converting, conversion: &Conversion, faults: &Faults, end: u32) {
        let (from, input) = (conversion.from, conversion.input.lent());
        let [place] = from.out_of_form(input)[..] else { return };
        let cart = &input[from.at(place)..][..from.unit()];
        self.count((of.cart, place as u32, end));
        if cart[0] == 1 {
            self.count((of.byte_1, u32::from(cart[1]), end));
        }
        for (longer, subject) in [(1, TO_OLD_FIRST_LONGER), (CARTS, TO_OLD_LAST_LONGER)] {
            if faults.longer.contains(&longer) {
                self.count((subject, place as u32, end));
            }
        }
    }
}

fn word(bytes: &[u8]) -> u32 {
    bytes.iter().rev().fold(0, |word, byte| word << 8 | u32::from(*byte))
}

#[cfg(test)]
mod tests {
    use super::*;

    /// What a conversion meets.
    fn met(mut conversion: Conversion) -> Coverage {
        let mut coverage = Coverage::default();
        let lent = conversion.clone();
        let answer = conversion.simulate();
        coverage.note_conversion(&lent, &answer);
        coverage
    }

    /// A copy with cart 1 and this title.
    fn copy(title: &[u8]) -> Vec<u8> {
        let mut copy = vec![0; Form::Ours.length()];
        copy[..9].copy_from_slice(&[1, title.len() as u8, 1, 0, 0, 1, 0, 0, 1]);
        copy[16..16 + title.len()].copy_from_slice(title);
        copy
    }

    #[test]
    fn a_wall_is_counted_by_what_its_carts_have() {
        let coverage = met(Conversion::of(Form::Ours, &copy(b"Aa ")));
        let of = &TO_OLD;
        let numbered =
            [(of.held, 1), (of.title, 3), (of.longest, 3), (of.space_last, 3), (of.audio, 256), (of.milliseconds, 1), (of.cases, 0)];
        numbered.iter().for_each(|(subject, number)| assert_eq!(coverage.met(&(subject, *number, DONE)), 1, "{subject}"));
        assert_eq!((coverage.met(&(of.space_first, 3, DONE)), coverage.met(&(of.back, 0, DONE)), coverage.backs), (0, 1, 1));
    }

    #[test]
    fn a_reason_is_counted_alone_and_beside_a_longer_title() {
        let longer = copy(&[b'x'; 33]);
        let mut damaged = longer.clone();
        damaged[10_239] = 1;
        let coverage = met(Conversion::of(Form::Ours, &damaged));
        assert_eq!(coverage.met(&(TO_OLD.reasons[CART], 1, 22)), 1);
        assert_eq!((coverage.met(&(TO_OLD_FIRST_LONGER, 128, 22)), coverage.pair_met(&("to_old", 22, 23))), (1, 1));
        let coverage = met(Conversion::new(Form::Ours, &longer, 6_151));
        assert_eq!((coverage.met(&(TO_OLD_LONGER_OUTPUT, 6_151, 22)), coverage.pair_met(&("to_old", 22, 23))), (1, 1));
        let coverage = met(Conversion::of(Form::Ours, &longer));
        assert_eq!((coverage.met(&(TO_OLD_LONGER, 1, 23)), coverage.pair_met(&("to_old", 22, 23))), (1, 0));
        let mut file = old::file_of(&copy(b"x"));
        file[5] = b'3';
        assert_eq!(met(Conversion::of(Form::Old, &file)).met(&(FROM_OLD_MARK, 6, 22)), 1);
    }
}
