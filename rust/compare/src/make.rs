//! Makers of operations, requests, carts and messages, right and spoilt.

use crate::message::{self, HEAD};
use crate::random::Random;
use crate::rows;
use crate::single;
use simulator::UNIT;

pub type Unit = [u8; UNIT];

/// The carts and titles that a list keeps coming back to.
pub struct Maker {
    pub carts: Vec<u16>,
    /// Titles that row 16 lets through.
    pub titles: Vec<Vec<u8>>,
    /// Titles that begin or end with a space.
    pub spaced: Vec<Vec<u8>>,
}

/// Percent of stored titles, and of titles asked for, that begin or end with a space.
const SPACED: usize = 30;

impl Maker {
    pub fn new(random: &mut Random, carts: usize) -> Maker {
        let mut pool = vec![1, 128];
        pool.extend((0..carts).map(|_| random.within(1, 128) as u16));
        let stem = stem(random);
        Maker { carts: pool, titles: titles(random, &stem), spaced: spaced(&stem) }
    }

    pub fn cart(&self, random: &mut Random) -> u16 {
        *random.pick(&self.carts)
    }

    fn title(&self, random: &mut Random) -> &[u8] {
        random.pick(&self.titles).as_slice()
    }

    /// A title that a cart or a record may have, or a read ask for: of both sorts.
    fn any_title(&self, random: &mut Random) -> &[u8] {
        let spaced = random.percent(SPACED);
        random.pick(if spaced { &self.spaced } else { &self.titles }).as_slice()
    }

    /// An operation that meets its cart, `held` being the carts' states;
    /// `held` follows it.
    pub fn fitting(&self, random: &mut Random, held: &mut [bool; 129]) -> Unit {
        let cart = self.cart(random);
        let state = &mut held[usize::from(cart)];
        let kind = if *state { *random.pick(&[2, 2, 3, 3, 4]) } else { 1 };
        *state = kind != 4;
        self.operation(random, kind, cart)
    }

    /// In the place of an operation that meets its cart one on the same cart that does not.
    pub fn misfit(&self, random: &mut Random, unit: &mut [u8]) {
        let kind = if unit[0] == 1 { random.within(2, 4) as u8 } else { 1 };
        let cart = u16::from_le_bytes([unit[2], unit[3]]);
        unit.copy_from_slice(&self.operation(random, kind, cart));
    }

    /// An operation in form, of any kind, that may meet its cart or not.
    pub fn any(&self, random: &mut Random) -> Unit {
        let kind = random.within(1, 4) as u8;
        let cart = self.cart(random);
        self.operation(random, kind, cart)
    }

    pub fn operation(&self, random: &mut Random, kind: u8, cart: u16) -> Unit {
        let mut unit = [0; UNIT];
        unit[0] = kind;
        unit[2..4].copy_from_slice(&cart.to_le_bytes());
        if matches!(kind, 1 | 3) {
            unit[4..8].copy_from_slice(&amount(random).to_le_bytes());
            unit[8..12].copy_from_slice(&amount(random).to_le_bytes());
        }
        if matches!(kind, 1 | 2) {
            put_title(&mut unit, self.title(random));
        }
        unit
    }

    /// Gives one of the operations that have a title one that begins or ends with a space; often the one that its cart has, if it has such.
    pub fn space(&self, random: &mut Random, operations: &mut [u8], head_end: &[u8]) {
        let mut titled: Vec<&mut [u8]> = operations.chunks_exact_mut(UNIT).filter(|unit| matches!(unit[0], 1 | 2)).collect();
        if titled.is_empty() {
            return;
        }
        let place = random.below(titled.len());
        let unit = &mut *titled[place];
        let own = single::cart_at(unit).map(|at| &head_end[at..at + UNIT]).filter(|cart| rows::title_spaced(cart));
        match own {
            Some(cart) if random.percent(50) => put_title(unit, rows::title(cart)),
            _ => put_title(unit, random.pick(&self.spaced).as_slice()),
        }
    }

    /// An operation as a record has it, links apart: of any kind, its title of both sorts.
    pub fn logged(&self, random: &mut Random) -> Unit {
        let mut unit = self.any(random);
        if matches!(unit[0], 1 | 2) {
            put_title(&mut unit, self.any_title(random));
        }
        unit
    }

    /// The same, of an operation that meets its cart, as `fitting` makes it.
    pub fn logged_fitting(&self, random: &mut Random, held: &mut [bool; 129]) -> Unit {
        let mut unit = self.fitting(random, held);
        if matches!(unit[0], 1 | 2) {
            put_title(&mut unit, self.any_title(random));
        }
        unit
    }

    /// A message of so many operations as records have them.
    pub fn message(&self, random: &mut Random, number: u32, count: usize) -> Vec<u8> {
        let operations: Vec<u8> = (0..count).flat_map(|_| self.logged(random)).collect();
        message::of(number, &operations)
    }

    /// A held cart at its place, its title of both sorts.
    pub fn held_cart(&self, random: &mut Random, cart: u16) -> Unit {
        let mut unit = self.operation(random, 1, cart);
        put_title(&mut unit, self.any_title(random));
        unit
    }

    pub fn request(&self, random: &mut Random) -> Unit {
        if random.percent(50) { self.by_title(random) } else { self.by_numbers(random) }
    }

    pub fn by_title(&self, random: &mut Random) -> Unit {
        let mut unit = [0; UNIT];
        unit[0] = 2;
        put_title(&mut unit, self.any_title(random));
        unit
    }

    pub fn by_numbers(&self, random: &mut Random) -> Unit {
        let count = match random.below(10) {
            0..=2 => 1,
            3..=4 => 32,
            5 => 2,
            _ => random.within(1, 32),
        };
        let mut unit = [0; UNIT];
        unit[0] = 1;
        unit[1] = count as u8;
        let only = random.percent(20).then(|| self.cart(random));
        for place in unit[16..].chunks_exact_mut(2).take(count) {
            let far = random.percent(10);
            let cart = if far { random.within(1, 128) as u16 } else { self.cart(random) };
            place.copy_from_slice(&only.unwrap_or(cart).to_le_bytes());
        }
        unit
    }
}

/// Gives a unit this title in the place of the one that it may have.
pub fn put_title(unit: &mut [u8], title: &[u8]) {
    unit[1] = title.len() as u8;
    unit[16..].fill(0);
    unit[16..16 + title.len()].copy_from_slice(title);
}

/// At least 1, with the ends and the byte borders more often.
fn amount(random: &mut Random) -> u32 {
    *random.pick(&[1, 256, 65_536, 1 << 24, u32::MAX, random.clone().word().max(1)])
}

/// Letters and spaces. The first is no space, nor the last of a beginning of these lengths; the longest is the whole.
fn text(random: &mut Random, beginnings: &[usize]) -> Vec<u8> {
    let length = beginnings.iter().copied().max().unwrap_or(1);
    let mut text: Vec<u8> = (0..length).map(|_| random.within(32, 126) as u8).collect();
    for end in beginnings.iter().chain(&[1]) {
        text[end - 1] = random.within(33, 126) as u8;
    }
    text
}

/// What most titles of a list begin with.
fn stem(random: &mut Random) -> Vec<u8> {
    text(random, &[32, 33, 63])
}

/// Titles that are near each other: equal up to the last byte, one the
/// beginning of another, and the lengths 1, 32, 33 and 64.
fn titles(random: &mut Random, stem: &[u8]) -> Vec<Vec<u8>> {
    let mut titles = vec![
        [stem, b"1"].concat(),
        [stem, b"2"].concat(),
        stem[..32].to_vec(),
        stem[..33].to_vec(),
        stem[..1].to_vec(),
        [&stem[..1], b" ~"].concat(),
        b"~".to_vec(),
        stem.to_vec(),
    ];
    for _ in 0..3 {
        let length = random.within(1, 64);
        titles.push(text(random, &[length]));
    }
    titles
}

/// Titles with a space at an end: the first, the last, both; of the lengths 1, 2, 3 and 64; near those of `titles`.
fn spaced(stem: &[u8]) -> Vec<Vec<u8>> {
    let letter = &stem[..1];
    vec![
        b" ".to_vec(),
        b"  ".to_vec(),
        [letter, b" "].concat(),
        [b" ", letter].concat(),
        [b" ", letter, b" "].concat(),
        [stem, b" "].concat(),
        [b" ", stem].concat(),
        [b" ", &stem[..62], b" "].concat(),
    ]
}

const BYTES: [u8; 14] = [0, 1, 2, 3, 4, 5, 31, 32, 33, 64, 65, 126, 127, 255];

/// Changes one field of an operation; it may stay in form.
pub fn spoil(random: &mut Random, unit: &mut [u8]) {
    match random.below(11) {
        0 => unit[0] = *random.pick(&[0, 1, 2, 3, 4, 5, 255]),
        1 => unit[1] = *random.pick(&[0, 1, 32, 33, 64, 65, 255]),
        2 => {
            let past = unit[1].wrapping_add(1);
            unit[1] = *random.pick(&[past, past.wrapping_sub(2)]);
        }
        3 => unit[2..4].copy_from_slice(&random.pick(&[0u16, 129, 256, 257, 65_535]).to_le_bytes()),
        4 => unit[4..8].fill(0),
        5 => unit[8..12].fill(0),
        6 => unit[random.within(4, 11)] = random.nonzero_byte(),
        7 => unit[random.within(12, 15)] = random.nonzero_byte(),
        8 => unit[16 + random.below(64)] = *random.pick(&BYTES),
        9 => {
            unit[1] = 65;
            unit[16..].fill(b'x');
        }
        _ => unit[random.below(UNIT)] = random.byte(),
    }
}

/// Changes one field of a request, or its size; it may stay in form.
pub fn spoil_request(random: &mut Random, request: &mut Vec<u8>) {
    match random.below(8) {
        0 => request[0] = *random.pick(&[0, 1, 2, 3, 255]),
        1 => request[1] = *random.pick(&[0, 1, 32, 33, 64, 65, 255]),
        2 => {
            let past = request[1].wrapping_add(1);
            request[1] = *random.pick(&[past, past.wrapping_sub(2)]);
        }
        3 => request[random.within(2, 15)] = random.nonzero_byte(),
        4 => {
            let place = 16 + 2 * random.below(usize::from(request[1]).clamp(1, 32));
            let number = random.pick(&[0u16, 129, 129, 257, 65_535]).to_le_bytes();
            request[place..place + 2].copy_from_slice(&number);
        }
        5 => request[16 + random.below(64)] = *random.pick(&BYTES),
        6 => request.resize(*random.pick(&[0, 1, 2, 79, 81, 160]), 0),
        _ => request[random.below(UNIT)] = random.byte(),
    }
}

/// Cuts or lengthens a message in form, or changes one field of it; it may stay in form.
pub fn spoil_message(random: &mut Random, message: &mut Vec<u8>) {
    let (length, count) = (message.len(), message[2]);
    match random.below(10) {
        0 => message.truncate(*random.pick(&[0, 1, 2, 3, 4, 5, length - UNIT])),
        1 => message.truncate(length - 1),
        2 => message.push(*random.pick(&[0, 0, 1, 255])),
        3 => message.extend_from_within(HEAD..HEAD + UNIT),
        4 => message[2] = *random.pick(&[0, count - 1, count + 1, 9, 128 + count, 255]),
        5 => with_count(message, *random.pick(&[0, 0, 9, 9, 9, 255])),
        6 => message[3] = random.nonzero_byte(),
        7 => message[..2].fill(0),
        8 => {
            let unit = HEAD + UNIT * random.below(usize::from(count));
            spoil(random, &mut message[unit..unit + UNIT]);
        }
        _ => message[random.below(length)] = random.byte(),
    }
}

/// Gives a message this count of operations, each a copy of the first.
fn with_count(message: &mut Vec<u8>, count: u8) {
    message[2] = count;
    let operations = message[HEAD..HEAD + UNIT].repeat(usize::from(count));
    message.truncate(HEAD);
    message.extend(operations);
}
