//! What 02's S-10 says of a conversion, on bytes and apart from the simulator. Of an accepted one the form of what it writes and what each
//! cart keeps say together what every byte is.

use crate::conversion::Conversion;
use crate::differ::answer_difference;
use crate::lent::Part;
use crate::old::{self, Form};
use simulator::{Answer, Control, DONE, REFUSED};

/// The answer by 02's words: the first row that holds, or "the bytes written". Control is all zero, since none is passed.
fn answer_to(lent: &Conversion) -> Answer {
    let (kind, value) = match lent.faults().rows().first() {
        Some(row) => (REFUSED, *row),
        None => (DONE, lent.from.other().length() as u32),
    };
    Answer { kind, value, found: 0, control: Control::default() }
}

/// Holds a conversion to 02's words; `left` is what it leaves of what it was lent.
pub fn check(lent: &Conversion, answer: &Answer, left: &Conversion) -> Result<(), String> {
    if let Some(words) = answer_difference("02's words", &answer_to(lent), answer) {
        return Err(words);
    }
    if let Some(at) = lent.input.first_difference(&left.input) {
        return Err(format!("the input is changed, byte {at}"));
    }
    match answer.kind {
        DONE => check_written(lent, left),
        _ => check_refused(lent, left),
    }
}

/// "A refused call changes no lent byte."
fn check_refused(lent: &Conversion, left: &Conversion) -> Result<(), String> {
    match lent.output.first_difference(&left.output) {
        Some(at) => Err(format!("refused, and output is changed, byte {at}")),
        None => Ok(()),
    }
}

/// What is written is of the form, "Each cart keeps its place, audio, length and title", and nothing is written beside it.
fn check_written(lent: &Conversion, left: &Conversion) -> Result<(), String> {
    let (from, to, written) = (lent.from, lent.from.other(), left.output.lent());
    if Part::new(written).first_difference(&left.output).is_some() {
        return Err("a byte beside the output is changed".to_string());
    }
    if !to.is_whole(written) {
        return Err(format!("what is written is not of the form, carts {:?}", to.out_of_form(written)));
    }
    match kept(from, lent.input.lent()).zip(kept(to, written)).position(|(one, other)| one != other) {
        Some(at) => Err(format!("cart {} is not kept", at + 1)),
        None => Ok(()),
    }
}

/// Of each cart what it keeps, none for an empty one: number, audio and length, and the title.
fn kept(form: Form, bytes: &[u8]) -> impl Iterator<Item = Option<(&[u8], &[u8])>> {
    form.carts(bytes).map(|(_, cart)| (cart[0] != 0).then(|| (&cart[2..12], old::title(cart))))
}

/// "Old to ours and back yields the same file; ours to old, where accepted, and back yields the same copy." `back` is what the conversion
/// back leaves.
pub fn check_back(lent: &Conversion, answer: &Answer, back: &Conversion) -> Result<(), String> {
    if answer.kind != DONE {
        return Err(format!("there, and back refused {}", answer.value));
    }
    match lent.input.first_difference(&back.output) {
        Some(at) => Err(format!("there and back, byte {at} is another")),
        None => Ok(()),
    }
}

#[cfg(test)]
mod tests {
    use super::*;

    type Change = fn(&mut Answer, &mut Conversion);

    /// Cart 1 with a title of this length.
    fn copy(title: u8) -> Vec<u8> {
        let mut copy = vec![0; Form::Ours.length()];
        copy[..9].copy_from_slice(&[1, title, 1, 0, 5, 0, 0, 0, 6]);
        copy[16..16 + usize::from(title)].fill(b'x');
        copy
    }

    /// What is said of a conversion with this change to its right end.
    fn said(lent: &Conversion, change: Change) -> Result<(), String> {
        let mut left = lent.clone();
        let mut answer = left.simulate();
        change(&mut answer, &mut left);
        check(lent, &answer, &left)
    }

    #[test]
    fn an_accepted_conversion_is_held_to_every_byte() {
        let there = Conversion::of(Form::Ours, &copy(2));
        let back = Conversion::of(Form::Old, &old::file_of(&copy(2)));
        let wrong: [(&str, Change); 9] = [
            ("another count", |answer, _| answer.value -= 6),
            ("refused", |answer, _| (answer.kind, answer.value) = (REFUSED, 22)),
            ("found", |answer, _| answer.found = 1),
            ("control", |answer, _| answer.control.commits = 1),
            ("the input", |_, left| left.input.lent_mut()[20] ^= 1),
            ("a guard", |_, left| left.output.trespass(-1, 0)),
            ("the last byte", |_, left| *left.output.lent_mut().last_mut().expect("a byte") = 1),
            ("audio, in form", |_, left| left.output.lent_mut()[left.from.other().at(1) + 4] = 7),
            ("a letter, in form", |_, left| left.output.lent_mut()[left.from.other().at(1) + 16] = b'X'),
        ];
        for lent in [there, back] {
            assert_eq!(said(&lent, |_, _| ()), Ok(()));
            wrong.iter().for_each(|(name, change)| assert!(said(&lent, *change).is_err(), "{lent}: {name}"));
        }
    }

    #[test]
    fn a_refused_conversion_is_held_to_its_row_and_leaves_its_output() {
        let lent = Conversion::of(Form::Ours, &copy(33));
        assert_eq!(said(&lent, |_, _| ()), Ok(()));
        assert!(said(&lent, |answer, _| answer.value = 22).is_err());
        assert!(said(&lent, |_, left| left.output.lent_mut()[0] = 0).is_err());
        assert_eq!(said(&Conversion::new(Form::Ours, &copy(33), 6_149), |answer, _| assert_eq!(answer.value, 22)), Ok(()));
    }

    #[test]
    fn there_and_back_must_yield_the_same() {
        for input in [Conversion::of(Form::Ours, &copy(32)), Conversion::of(Form::Old, &old::file_of(&copy(32)))] {
            let mut there = input.clone();
            there.simulate();
            let mut back = there.back();
            let answer = back.simulate();
            assert_eq!(check_back(&input, &answer, &back), Ok(()));
            back.output.lent_mut()[9] ^= 1;
            assert!(check_back(&input, &answer, &back).is_err());
            assert!(check_back(&input, &Answer { kind: REFUSED, ..answer }, &back).is_err());
        }
    }
}
