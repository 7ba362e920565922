//! Single fields put out of their rule: every kind of field of a cart, a
//! record, a session and the control; and the log's chains, by `chains.rs`.

use crate::chains::BREAKS;
use crate::lent::Lent;
use crate::places::{self, Place};
use crate::random::Random;
use crate::wall::Wall;
use simulator::{CARTS, Control, LIBRARY, UNIT};

type Change = fn(&mut Random, &mut [u8]);
type Twist = fn(&mut Random, &mut Control) -> bool;

/// The subject under which the copies of damaged carts are counted.
pub const COPIES: &str = "damage to a cart of copy";

/// What was put out of its rule.
#[derive(Clone, Copy)]
pub struct Damage {
    pub name: &'static str,
    /// The copy of a cart: 0 the head end's, 5 the sixth, else its studio's.
    pub copy: Option<u32>,
}

/// Puts one field of a wall of the layout out of its rule; `None` when this
/// wall has no place for the kind of damage chosen.
pub fn damage(random: &mut Random, wall: &mut Wall) -> Option<Damage> {
    let chosen = random.below(UNITS.len() + CONTROLS.len() + BREAKS.len());
    let (control, chain) = (chosen.wrapping_sub(UNITS.len()), chosen.wrapping_sub(UNITS.len() + CONTROLS.len()));
    if let Some((name, place, change)) = UNITS.get(chosen) {
        return damage_unit(random, wall, *place, *change).map(|copy| Damage { name, copy });
    }
    let (name, damaged) = match (CONTROLS.get(control), BREAKS.get(chain)) {
        (Some((name, twist)), _) => (name, twist(random, &mut wall.control)),
        (_, Some((name, change))) => (name, change(random, wall)),
        _ => return None,
    };
    damaged.then_some(Damage { name, copy: None })
}

/// Changes one unit of a kind, if there is one; says of a cart in which copy it is.
fn damage_unit(random: &mut Random, wall: &mut Wall, place: Place, change: Change) -> Option<Option<u32>> {
    let at = find(random, place, &mut wall.played, &wall.control)?;
    let part = places::memory(place, &mut wall.played);
    change(random, &mut part.lent_mut()[UNIT * at..UNIT * (at + 1)]);
    let cart = part.len() == LIBRARY;
    Some(cart.then_some((at / CARTS) as u32))
}

/// Puts one field of a held cart of the layout out of its rule.
pub fn held_cart(random: &mut Random, unit: &mut [u8]) {
    let changes: Vec<Change> = UNITS.iter().filter(|(_, place, _)| *place == Place::HeldCart).map(|(.., change)| *change).collect();
    random.pick(&changes)(random, unit);
}

/// Puts one field of a cart of the layout out of its rule, held or empty.
pub fn cart(random: &mut Random, unit: &mut [u8]) {
    match unit[0] {
        1 => held_cart(random, unit),
        _ => unit[random.below(UNIT)] = random.nonzero_byte(),
    }
}

/// One unit of a kind, counted from 0 in its memory.
fn find(random: &mut Random, place: Place, lent: &mut Lent, control: &Control) -> Option<usize> {
    let units = places::find(place, lent, control);
    if units.is_empty() {
        return None;
    }
    Some(*random.pick(&units))
}

pub fn names() -> impl Iterator<Item = &'static str> {
    let fields = UNITS.iter().map(|(name, ..)| *name).chain(CONTROLS.iter().map(|(name, _)| *name));
    fields.chain(BREAKS.iter().map(|(name, _)| *name))
}

const UNITS: &[(&str, Place, Change)] = &[
    ("held cart, byte 0", Place::HeldCart, |r, u| u[0] = *r.pick(&[0, 2, 3, 128, 255])),
    ("held cart, title length", Place::HeldCart, title_length),
    ("held cart, number's low byte", Place::HeldCart, |r, u| u[2] ^= r.nonzero_byte()),
    ("held cart, number's high byte", Place::HeldCart, |r, u| u[3] = r.nonzero_byte()),
    ("held cart, audio 0", Place::HeldCart, |_, u| u[4..8].fill(0)),
    ("held cart, length 0", Place::HeldCart, |_, u| u[8..12].fill(0)),
    ("held cart, bytes 12–15", Place::HeldCart, |r, u| u[r.within(12, 15)] = r.nonzero_byte()),
    ("held cart, title byte", Place::HeldCart, title_byte),
    ("held cart, byte after the title", Place::HeldCart, after_title),
    ("empty cart, one byte", Place::EmptyCart, |r, u| u[r.below(80)] = r.nonzero_byte()),
    ("cart above S, one byte", Place::CartAboveS, |r, u| u[r.below(80)] = r.nonzero_byte()),
    ("cart above S, whole", Place::CartAboveS, |_, u| whole_cart(u)),
    ("cart of the sixth copy, nothing retired, one byte", Place::UnusedSixthCart, |r, u| u[r.below(80)] = r.nonzero_byte()),
    ("cart of the sixth copy, nothing retired, whole", Place::UnusedSixthCart, |_, u| whole_cart(u)),
    ("cart of the sixth copy", Place::SixthCart, cart),
    ("record, byte 0", Place::Record, |r, u| u[0] = *r.pick(&[0, 5, 6, 255])),
    ("record, another kind", Place::Record, |r, u| u[0] = 1 + (u[0] + r.below(3) as u8) % 4),
    ("record, cart 0", Place::Record, |_, u| u[2..4].fill(0)),
    ("record, cart 129 and above", Place::Record, |r, u| {
        u[2..4].copy_from_slice(&r.pick(&[129u16, 255, 256, 257, 65_535]).to_le_bytes());
    }),
    ("record, title length", Place::TitledRecord, title_length),
    ("record, title byte", Place::TitledRecord, title_byte),
    ("record, byte after the title", Place::TitledRecord, after_title),
    ("record without title, byte 1", Place::UntitledRecord, |r, u| u[1] = r.nonzero_byte()),
    ("record without title, 16–79", Place::UntitledRecord, |r, u| {
        u[r.within(16, 79)] = r.nonzero_byte();
    }),
    ("record, audio 0", Place::CutRecord, |_, u| u[4..8].fill(0)),
    ("record, length 0", Place::CutRecord, |_, u| u[8..12].fill(0)),
    ("record without cut, 4–11", Place::UncutRecord, |r, u| u[r.within(4, 11)] = r.nonzero_byte()),
    ("record, next operation", Place::Record, |r, u| other_link(r, u, 12)),
    ("first record, next transaction", Place::FirstRecord, |r, u| other_link(r, u, 14)),
    ("later record, bytes 14–15", Place::LaterRecord, |r, u| u[r.within(14, 15)] = r.nonzero_byte()),
    ("free record, a byte before its link", Place::FreeRecord, |r, u| u[r.below(12)] = r.nonzero_byte()),
    ("free record, a byte after its link", Place::FreeRecord, |r, u| u[r.within(14, 79)] = r.nonzero_byte()),
    ("free record, an operation", Place::FreeRecord, |_, u| u[..3].copy_from_slice(&[4, 0, 1])),
    ("free record, next free record", Place::FreeRecord, |r, u| other_link(r, u, 12)),
    ("last free record, next free record", Place::LastFreeRecord, |r, u| other_link(r, u, 12)),
    ("session, byte 0", Place::Session, |r, u| u[0] = *r.pick(&[3, 4, 255])),
    ("session, number above commits", Place::Session, |r, u| {
        let number = u16::from_le_bytes([u[2], u[3]]);
        u[2..4].copy_from_slice(&r.pick(&[513, 32_768, 65_535, number.saturating_add(1)]).to_le_bytes());
    }),
    ("session, bytes 4–15", Place::Session, |r, u| u[r.within(4, 15)] = r.nonzero_byte()),
    ("idle session, byte 0", Place::IdleSession, |r, u| u[0] = *r.pick(&[1, 2])),
    ("idle session, byte 1", Place::IdleSession, |r, u| u[1] = r.nonzero_byte()),
    ("idle session, 16–79", Place::IdleSession, |r, u| u[r.within(16, 79)] = r.nonzero_byte()),
    ("numbers waiting, byte 0", Place::NumbersSession, |_, u| u[0] = 0),
    ("numbers waiting, count", Place::NumbersSession, |r, u| {
        u[1] = *r.pick(&[0, u[1] + 1, u[1] - 1, 33, 255]);
    }),
    ("numbers waiting, cart 0", Place::NumbersSession, |r, u| number(r, u, &[0])),
    ("numbers waiting, cart 129 and above", Place::NumbersSession, |r, u| {
        number(r, u, &[129, 255, 256, 257, 65_535]);
    }),
    ("numbers waiting, after the numbers", Place::NumbersSession, after_numbers),
    ("title waiting, byte 0", Place::TitleSession, |_, u| u[0] = 0),
    ("title waiting, length", Place::TitleSession, title_length),
    ("title waiting, title byte", Place::TitleSession, title_byte),
    ("title waiting, after the title", Place::TitleSession, after_title),
    ("unused session, one byte", Place::UnusedSession, |r, u| u[r.below(80)] = r.nonzero_byte()),
];

const CONTROLS: &[(&str, Twist)] = &[
    ("control, S 0", |_, c| put(&mut c.studios, 0)),
    ("control, S above 4", |r, c| put(&mut c.studios, *r.pick(&[5, 6, 260, 65_537, u32::MAX]))),
    ("control, S another", |r, c| put(&mut c.studios, r.within(1, 4) as u32)),
    ("control, session's studio above S", |r, c| {
        let studio = *r.pick(&[c.studios + 1, 5, 257, 65_537, u32::MAX]);
        put(&mut c.session_studios[r.below(16)], studio)
    }),
    ("control, session's studio another", |r, c| {
        let studio = r.within(0, c.studios as usize) as u32;
        put(&mut c.session_studios[r.below(16)], studio)
    }),
    ("control, used another", |r, c| near(r, &mut c.used)),
    ("control, commits another", |r, c| near(r, &mut c.commits)),
    ("control, retired another", |r, c| near(r, &mut c.retired)),
    ("control, oldest another", |r, c| near(r, &mut c.oldest)),
    ("control, free first another", |r, c| near(r, &mut c.free_first)),
    ("control, free last another", |r, c| near(r, &mut c.free_last)),
    ("control, oldest of more than 16 bits", |r, c| c.oldest > 0 && more_bits(r, &mut c.oldest)),
    ("control, free first of more than 16 bits", |r, c| c.free_first > 0 && more_bits(r, &mut c.free_first)),
    ("control, free last of more than 16 bits", |r, c| c.free_last > 0 && more_bits(r, &mut c.free_last)),
    ("control, every count raised above 65,535 commits", |r, c| {
        let above = *r.pick(&[65_536, 65_536, 65_537, 131_071]);
        raise(c, above - c.commits);
        true
    }),
    ("control, retired above one applied", |r, c| {
        let i = r.below(c.studios as usize);
        let (sent, applied) = (c.sent[i], c.applied[i]);
        let fits = applied == c.retired && c.commits < 65_535;
        raise(c, 1);
        c.applied[i] = applied;
        fits && put(&mut c.sent[i], sent)
    }),
    ("control, sent below applied", |r, c| {
        let i = r.below(c.studios as usize);
        c.applied[i] > 0 && put(&mut c.sent[i], c.applied[i] - 1)
    }),
    ("control, sent above commits", |r, c| {
        let above = *r.pick(&[c.commits + 1, 65_536 + c.commits, u32::MAX]);
        put(&mut c.sent[r.below(c.studios as usize)], above)
    }),
    ("control, sent and applied above commits", |r, c| {
        let i = r.below(c.studios as usize);
        c.applied[i] = *r.pick(&[c.commits + 1, u32::MAX]);
        put(&mut c.sent[i], c.applied[i])
    }),
    ("control, window of 33", |r, c| {
        let i = r.below(c.studios as usize);
        c.sent[i] = c.commits;
        c.commits - c.retired >= 33 && put(&mut c.applied[i], c.commits - 33)
    }),
    ("control, applied above sent", |r, c| {
        let i = r.below(c.studios as usize);
        let above = *r.pick(&[c.sent[i] + 1, 1 << 31, u32::MAX]);
        put(&mut c.applied[i], above)
    }),
    ("control, count above S", |r, c| {
        let i = r.within(c.studios as usize, 4);
        let both = r.percent(50);
        let count = *r.pick(&[1, 1, 32, u32::MAX]);
        i < 4 && (!both || put(&mut c.applied[i], count)) && put(&mut c.sent[i], count)
    }),
];

fn put(word: &mut u32, value: u32) -> bool {
    *word = value;
    true
}

/// Raises every count of a control that is of the layout.
fn raise(control: &mut Control, more: u32) {
    let studios = control.studios as usize;
    let counts = control.sent[..studios].iter_mut().chain(&mut control.applied[..studios]);
    counts.chain([&mut control.commits, &mut control.retired]).for_each(|count| *count += more);
}

/// A word whose low 16 bits stay.
fn more_bits(random: &mut Random, word: &mut u32) -> bool {
    *word |= *random.pick(&[1 << 16, 1 << 24, 1 << 31]);
    true
}

fn near(random: &mut Random, word: &mut u32) -> bool {
    let (more, less, far) = (*word + 1, word.saturating_sub(1), *word + 65_536);
    put(word, *random.pick(&[more, less, far, 0, 512, 513, 1 << 31, u32::MAX]))
}

/// A held cart 1.
fn whole_cart(unit: &mut [u8]) {
    unit[..9].copy_from_slice(&[1, 1, 1, 0, 1, 0, 0, 0, 1]);
    unit[16] = b'x';
}

fn title_length(random: &mut Random, unit: &mut [u8]) {
    unit[1] = *random.pick(&[0, unit[1] - 1, unit[1] + 1, 65, 128 + unit[1], 255]);
}

fn title_byte(random: &mut Random, unit: &mut [u8]) {
    let place = 16 + random.below(usize::from(unit[1]));
    unit[place] = *random.pick(&[0, 1, 31, 127, 128, 160, 255]);
}

fn after_title(random: &mut Random, unit: &mut [u8]) {
    let length = usize::from(unit[1]);
    if length < 64 {
        unit[random.within(16 + length, 79)] = random.nonzero_byte();
    }
}

fn after_numbers(random: &mut Random, unit: &mut [u8]) {
    let end = 16 + 2 * usize::from(unit[1]);
    if end < 80 {
        unit[random.within(end, 79)] = random.nonzero_byte();
    }
}

fn number(random: &mut Random, unit: &mut [u8], to: &[u16]) {
    let place = 16 + 2 * random.below(usize::from(unit[1]));
    unit[place..place + 2].copy_from_slice(&random.pick(to).to_le_bytes());
}

fn other_link(random: &mut Random, unit: &mut [u8], at: usize) {
    let link = u16::from_le_bytes([unit[at], unit[at + 1]]);
    let any = random.within(0, 514) as u16;
    let choices = [0, 1, link + 1, link.wrapping_sub(1), 512, 513, 65_535, any];
    let to = *random.pick(&choices);
    unit[at..at + 2].copy_from_slice(&to.to_le_bytes());
}
