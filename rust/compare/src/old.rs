//! The two forms between which there are conversions (02's S-10), on bytes and apart from the simulator: an old file and one copy of ours.
//! A cart begins with the same 16 bytes in both; then there is room for a title, of 32 letters or of 64.

use simulator::CARTS;

/// Bytes of a cart before its title.
pub const HEAD: usize = 16;

#[derive(Clone, Copy, Debug, PartialEq, Eq)]
pub enum Form {
    /// "the bytes CART32, then 128 carts of 48 bytes"
    Old,
    /// One copy: 128 carts of 80 bytes.
    Ours,
}

impl Form {
    pub fn other(self) -> Form {
        match self {
            Form::Old => Form::Ours,
            Form::Ours => Form::Old,
        }
    }

    /// What stands before the carts.
    pub fn mark(self) -> &'static [u8] {
        match self {
            Form::Old => b"CART32",
            Form::Ours => b"",
        }
    }

    /// The most letters of a title.
    pub fn room(self) -> usize {
        match self {
            Form::Old => 32,
            Form::Ours => 64,
        }
    }

    /// Bytes of a cart.
    pub fn unit(self) -> usize {
        HEAD + self.room()
    }

    /// Bytes of the whole.
    pub fn length(self) -> usize {
        self.mark().len() + CARTS * self.unit()
    }

    /// Where a cart, counted from 1, begins.
    pub fn at(self, cart: usize) -> usize {
        self.mark().len() + self.unit() * (cart - 1)
    }

    /// The carts that are there whole, with their places from 1.
    pub fn carts(self, bytes: &[u8]) -> impl Iterator<Item = (usize, &[u8])> {
        (1..=CARTS).zip(bytes.get(self.mark().len()..).unwrap_or_default().chunks_exact(self.unit()))
    }

    /// The same, to be changed.
    pub fn carts_mut(self, bytes: &mut [u8]) -> impl Iterator<Item = (usize, &mut [u8])> {
        (1..=CARTS).zip(bytes.get_mut(self.mark().len()..).unwrap_or_default().chunks_exact_mut(self.unit()))
    }

    /// The places of the carts that are out of form.
    pub fn out_of_form(self, bytes: &[u8]) -> Vec<usize> {
        self.carts(bytes).filter(|(place, cart)| !in_form(*place, cart)).map(|(place, _)| place).collect()
    }

    /// Whether the bytes are of this form.
    pub fn is_whole(self, bytes: &[u8]) -> bool {
        bytes.len() == self.length() && bytes.starts_with(self.mark()) && self.out_of_form(bytes).is_empty()
    }

    /// The places of the carts in form with a title that the other form has no room for.
    pub fn longer(self, bytes: &[u8]) -> Vec<usize> {
        let is_longer = |cart: &[u8]| title(cart).len() > self.other().room();
        self.carts(bytes).filter(|(place, cart)| in_form(*place, cart) && is_longer(cart)).map(|(place, _)| place).collect()
    }
}

fn is_zero(bytes: &[u8]) -> bool {
    bytes.iter().all(|byte| *byte == 0)
}

/// Whether a cart of either form is empty, or held as its place asks for.
pub fn in_form(place: usize, cart: &[u8]) -> bool {
    let (head, room) = cart.split_at(HEAD);
    let (audio, milliseconds, zeros) = (&head[4..8], &head[8..12], &head[12..]);
    let held = head[0] == 1 && head[2..4] == [place as u8, 0] && !is_zero(audio) && !is_zero(milliseconds) && is_zero(zeros);
    let titled = room.split_at_checked(usize::from(head[1])).is_some_and(|(title, rest)| is_title(title) && is_zero(rest));
    is_zero(cart) || (held && titled)
}

fn is_title(letters: &[u8]) -> bool {
    !letters.is_empty() && letters.iter().all(|letter| (32..=126).contains(letter))
}

/// The title of a cart in form.
pub fn title(cart: &[u8]) -> &[u8] {
    &cart[HEAD..HEAD + usize::from(cart[1])]
}

/// The old file of a copy that has no longer title.
pub fn file_of(copy: &[u8]) -> Vec<u8> {
    let carts = Form::Ours.carts(copy).flat_map(|(_, cart)| &cart[..Form::Old.unit()]);
    Form::Old.mark().iter().chain(carts).copied().collect()
}

#[cfg(test)]
mod tests {
    use super::*;

    /// Cart 2 with a title of two letters.
    fn cart(form: Form) -> Vec<u8> {
        let mut cart = vec![0; form.unit()];
        cart[..9].copy_from_slice(&[1, 2, 2, 0, 5, 0, 0, 0, 6]);
        cart[HEAD..HEAD + 2].copy_from_slice(b" ~");
        cart
    }

    #[test]
    fn the_forms_have_their_sizes() {
        assert_eq!(
            [Form::Old, Form::Ours].map(|form| (form.unit(), form.length(), form.at(128))),
            [(48, 6_150, 6_102), (80, 10_240, 10_160)]
        );
        assert_eq!([Form::Old, Form::Ours].map(|form| form.carts(&vec![0; 75_776]).count()), [128, 128]);
        assert_eq!(Form::Old.carts(&[0; 5]).count(), 0);
    }

    #[test]
    fn a_cart_is_in_form_at_its_place_with_each_field() {
        for form in [Form::Old, Form::Ours] {
            let right = cart(form);
            assert!(in_form(2, &right) && in_form(7, &vec![0; form.unit()]) && !in_form(3, &right));
            let wrong =
                [(0, 0), (0, 2), (1, 0), (1, 1), (1, 3), (1, 65), (3, 1), (4, 0), (8, 0), (12, 1), (15, 1), (16, 31), (17, 127), (18, 32)];
            for (at, value) in wrong {
                let mut cart = right.clone();
                cart[at] = value;
                assert!(!in_form(2, &cart), "{form:?}, byte {at} as {value}");
            }
            let mut full = right.clone();
            full[1] = form.room() as u8;
            full[HEAD..].fill(b'x');
            assert!(in_form(2, &full));
            full[1] += 1;
            assert!(!in_form(2, &full));
        }
    }

    #[test]
    fn a_file_is_made_of_a_copy() {
        let copy = [vec![0; 80], cart(Form::Ours), vec![0; 126 * 80]].concat();
        let file = file_of(&copy);
        assert!(Form::Ours.is_whole(&copy) && Form::Old.is_whole(&file) && !Form::Ours.is_whole(&file));
        assert_eq!(file[54..102], cart(Form::Old));
        assert_eq!((Form::Ours.longer(&copy), Form::Old.longer(&file)), (vec![], vec![]));
    }

    #[test]
    fn a_title_is_longer_from_33_letters_on() {
        let mut copy = [vec![0; 80], cart(Form::Ours), vec![0; 126 * 80]].concat();
        for (length, longer) in [(32, vec![]), (33, vec![2]), (64, vec![2])] {
            copy[81] = length;
            copy[96..96 + usize::from(length)].fill(b'x');
            assert_eq!(Form::Ours.longer(&copy), longer);
        }
        copy[92] = 1;
        assert_eq!((Form::Ours.longer(&copy), Form::Ours.out_of_form(&copy)), (vec![], vec![2]));
    }
}
