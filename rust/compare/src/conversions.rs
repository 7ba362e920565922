//! Conversions (02's S-10): of walls of every sort, as they are, damaged and of wrong lengths, each way.

use crate::asides;
use crate::conversion::Conversion;
use crate::conversion_sweep;
use crate::direct;
use crate::lists;
use crate::make::{self, Maker};
use crate::old::{self, Form, HEAD};
use crate::player::{Mismatch, Player};
use crate::random::Random;
use crate::written::Written;
use simulator::{CARTS, COPY, UNIT};

/// Walls of a seed, and conversions of each, each way.
const WALLS: usize = 3;
const CONVERSIONS: usize = 5;

/// The conversions of a seed.
pub fn play(player: &mut Player<'_>, seed: u64) -> Result<(), Mismatch> {
    let mut random = Random::new(seed.swap_bytes());
    for _ in 0..WALLS {
        let maker = Maker::new(&mut random, 6);
        let copy = copy(&mut random, &maker, &player.written);
        for from in [Form::Old, Form::Ours].repeat(CONVERSIONS) {
            let mut conversion = Conversion::of(from, &input(&mut random, from, &copy));
            change(&mut random, &mut conversion);
            player.convert(&conversion)?;
        }
    }
    conversion_sweep::play(player, &mut random, lists::kind(seed), lists::turn(seed))
}

/// A copy of the layout: empty, with one cart, full, L(n), or as chance has it.
fn copy(random: &mut Random, maker: &Maker, written: &Written) -> Vec<u8> {
    let mut copy = vec![0; COPY];
    match random.below(10) {
        0 => {}
        1 => {
            let place = place(random);
            hold(random, maker, &mut copy, place);
        }
        2..=3 => (1..=CARTS).for_each(|place| hold(random, maker, &mut copy, place)),
        4 => return written.library(written.any_count(random)),
        _ => direct::fill_copy(random, maker, &mut copy),
    }
    copy
}

/// Puts a held cart into a copy at this place.
pub fn hold(random: &mut Random, maker: &Maker, copy: &mut [u8], place: usize) {
    let at = Form::Ours.at(place);
    copy[at..at + UNIT].copy_from_slice(&maker.held_cart(random, place as u16));
}

/// The first cart, the last, or any.
pub fn place(random: &mut Random) -> usize {
    let any = random.within(1, CARTS);
    *random.pick(&[1, CARTS, any, any])
}

/// A wall of this form: for an old file with titles that have room there, for a copy of ours with longer ones too, or with one.
fn input(random: &mut Random, from: Form, copy: &[u8]) -> Vec<u8> {
    let (mut fitting, longer) = (copy.to_vec(), random.below(5));
    fit(random, &mut fitting);
    match (from, longer) {
        (Form::Old, _) => return old::file_of(&fitting),
        (Form::Ours, 0) => return copy.to_vec(),
        (Form::Ours, 1) => lengthen(random, &mut fitting),
        _ => {}
    }
    fitting
}

/// In the place of each longer title one of at most 32 letters.
pub fn fit(random: &mut Random, copy: &mut [u8]) {
    for cart in Form::Ours.longer(copy) {
        let any = random.within(1, 32);
        let length = *random.pick(&[31, 32, 32, any]);
        let unit = &mut copy[Form::Ours.at(cart)..][..UNIT];
        let mut letters = unit[HEAD..HEAD + length].to_vec();
        if random.percent(20) {
            letters[length - 1] = b' ';
        }
        make::put_title(unit, &letters);
    }
}

/// Gives one held cart a longer title, if there is one.
fn lengthen(random: &mut Random, copy: &mut [u8]) {
    let length = *random.pick(&[33, 33, 34, 63, 64]);
    if let Some(cart) = held(random, Form::Ours, copy) {
        put_letters(random, copy, cart, length);
    }
}

/// A held cart, if there is one: the first, the last, or any.
fn held(random: &mut Random, form: Form, bytes: &[u8]) -> Option<usize> {
    let held: Vec<usize> = form.carts(bytes).filter(|(_, cart)| cart[0] == 1).map(|(place, _)| place).collect();
    let any = random.below(held.len().max(1));
    let at = *random.pick(&[0, held.len().saturating_sub(1), any, any]);
    held.get(at).copied()
}

/// Gives a held cart of a copy a title of this length.
pub fn put_letters(random: &mut Random, copy: &mut [u8], cart: usize, length: usize) {
    let letters: Vec<u8> = (0..length).map(|_| random.within(32, 126) as u8).collect();
    make::put_title(&mut copy[Form::Ours.at(cart)..][..UNIT], &letters);
}

/// Changes nothing, a cart, the mark, a length, all bytes, or two of these.
fn change(random: &mut Random, conversion: &mut Conversion) {
    match random.below(14) {
        0..=4 => {}
        5..=7 => spoil_input(random, conversion),
        8..=9 => spoil_mark(random, conversion),
        10 => resize(random, conversion),
        11 => *conversion = with_output(random, conversion),
        12 => conversion.input.lent_mut().iter_mut().for_each(|byte| *byte = random.byte()),
        _ => {
            spoil_input(random, conversion);
            *conversion = with_output(random, conversion);
        }
    }
}

/// Spoils one cart, now and then two: mostly held ones, often the first or the last of them.
fn spoil_input(random: &mut Random, conversion: &mut Conversion) {
    let (from, carts) = (conversion.from, *random.pick(&[1, 1, 1, 2]));
    for _ in 0..carts {
        let any = place(random);
        let place = if random.percent(20) { any } else { held(random, from, conversion.input.lent()).unwrap_or(any) };
        spoil(random, &mut conversion.input.lent_mut()[from.at(place)..][..from.unit()]);
    }
}

/// Changes one field of a cart of either form; it may stay in form.
fn spoil(random: &mut Random, cart: &mut [u8]) {
    let (length, room) = (cart[1], cart.len() - HEAD);
    match random.below(10) {
        0 => cart[0] = *random.pick(&[0, 2, 128, 255]),
        1 => cart[1] = *random.pick(&[0, length.wrapping_sub(1), length.wrapping_add(1), 33, 64, room as u8 + 1]),
        2 => {
            cart[1] = *random.pick(&[room as u8 + 1, 64, 128, 255]);
            cart[HEAD..].fill(b'x');
        }
        3 => cart[2] = *random.pick(&[0, cart[2].wrapping_add(1), cart[2].wrapping_sub(1), 129, random.clone().byte()]),
        4 => cart[3] = random.nonzero_byte(),
        5 => cart[4..8].fill(0),
        6 => cart[8..12].fill(0),
        7 => cart[random.within(12, 15)] = random.nonzero_byte(),
        8 => cart[HEAD + random.below(room)] = *random.pick(&[0, 1, 31, 32, 127, 128, 255]),
        _ => cart[random.below(cart.len())] = random.byte(),
    }
}

/// Another mark: a byte of it changed, in the other case, or that of some other edition. A copy has none.
fn spoil_mark(random: &mut Random, conversion: &mut Conversion) {
    let length = conversion.from.mark().len();
    let Some(mark) = conversion.input.lent_mut().get_mut(..length).filter(|mark| !mark.is_empty()) else { return };
    match random.below(6) {
        0 => mark.make_ascii_lowercase(),
        1 => mark.copy_from_slice(b"CART64"),
        2 => mark.fill(0),
        3 => mark[random.below(length)] ^= 32,
        _ => mark[random.below(length)] ^= random.nonzero_byte(),
    }
}

/// The lengths that something of this form is given in turn: right only where it is the last one.
pub fn lengths(form: Form) -> [usize; 9] {
    let right = form.length();
    [0, 1, right - form.unit(), right - 1, right + 1, right + form.unit(), form.other().length(), 65_536 + right, right]
}

fn wrong_length(random: &mut Random, form: Form) -> usize {
    *random.pick(&lengths(form)[..8])
}

/// An input of another length.
fn resize(random: &mut Random, conversion: &mut Conversion) {
    let length = wrong_length(random, conversion.from);
    asides::resize(&mut conversion.input, length);
}

/// The same input, with an output of another length.
fn with_output(random: &mut Random, conversion: &Conversion) -> Conversion {
    Conversion::new(conversion.from, conversion.input.lent(), wrong_length(random, conversion.from.other()))
}
