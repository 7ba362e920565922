//! Ways to tear memory that the log makes (02's S-8): it stays of the layout, and no list leaves it so, such as a save of which one part is
//! from another moment.

use crate::keys::DONE;
use crate::left;
use crate::log;
use crate::made::{self, Log, SIXTH};
use crate::make::{Maker, Unit};
use crate::random::Random;
use crate::wall::Wall;
use simulator::{CARTS, COPY, Control, UNIT};

type Tear = fn(&mut Random, &Maker, &mut Wall);

/// A way to tear memory: its name, the ends that loads of what it leaves must have had (accepted where no copy shows it), and itself.
#[derive(Clone, Copy)]
pub struct Torn {
    pub name: &'static str,
    pub ends: &'static [u32],
    pub tear: Tear,
}

const fn torn(name: &'static str, ends: &'static [u32], tear: Tear) -> Torn {
    Torn { name, ends, tear }
}

pub const TORN: &[Torn] = &[
    torn("torn: a letter of a title", &[19], |r, m, w| in_copy(r, m, w, letter)),
    torn("torn: a field of a cart", &[19], |r, m, w| in_copy(r, m, w, field)),
    torn("torn: a cart more or less", &[19], |r, m, w| in_copy(r, m, w, any_cart)),
    torn("torn: the first or the last cart", &[19], |r, m, w| in_copy(r, m, w, end_cart)),
    torn("torn: a copy of an earlier state", &[19], earlier),
    torn("torn: a copy of a later state", &[19], later),
    torn("torn: two copies exchanged", &[19], exchanged),
    torn("torn: a letter of the sixth copy", &[19], |r, m, w| in_sixth(r, m, w, letter)),
    torn("torn: a cart of the sixth copy more or less", &[19], |r, m, w| in_sixth(r, m, w, any_cart)),
    torn("torn: the sixth copy empty", &[19], |r, m, w| in_sixth(r, m, w, |_, _, copy| copy.fill(0))),
    torn("torn: the sixth copy of a later state", &[19], sixth_later),
    torn("torn: the sixth copy of another studio's state", &[19], sixth_of_studio),
    torn("torn: another sixth copy, and copies that are made from it", &[19, DONE], sixth_and_copies),
    torn("torn: applied of another moment", &[19], applied),
    torn("torn: the log without its last transaction", &[19], without_last),
    torn("torn: the log empty", &[19], without_log),
    torn("torn: a record of the log", &[19, DONE], record),
    torn("torn: an operation in a wrong state", &[19], misfit),
    torn("torn: sent of another moment", &[DONE], sent),
    torn("torn: sessions of another moment", &[DONE], sessions),
    torn("torn: a session at another studio", &[DONE], studio),
];

/// A change of one copy: the head end's, that of the last studio, or any.
fn in_copy(random: &mut Random, maker: &Maker, wall: &mut Wall, change: fn(&mut Random, &Maker, &mut [u8])) {
    let last = wall.control.studios as usize;
    let copy = *random.pick(&[0, last, random.clone().within(0, last)]);
    change(random, maker, &mut wall.played.library.lent_mut()[COPY * copy..COPY * (copy + 1)]);
}

/// A change of the sixth copy, where something is retired.
fn in_sixth(random: &mut Random, maker: &Maker, wall: &mut Wall, change: fn(&mut Random, &Maker, &mut [u8])) {
    if wall.control.retired > 0 {
        change(random, maker, &mut wall.played.library.lent_mut()[SIXTH * COPY..]);
    }
}

/// As if the oldest transaction had acted on it already.
fn sixth_later(_: &mut Random, _: &Maker, wall: &mut Wall) {
    let library = Log::new(&wall.control, &wall.played).library(wall.control.retired + 1);
    if wall.control.retired > 0 {
        wall.played.library.lent_mut()[SIXTH * COPY..].copy_from_slice(&library);
    }
}

fn sixth_of_studio(random: &mut Random, _: &Maker, wall: &mut Wall) {
    let studio = random.within(1, wall.control.studios as usize);
    if wall.control.retired > 0 {
        wall.played.library.lent_mut().copy_within(studio * COPY..(studio + 1) * COPY, SIXTH * COPY);
    }
}

/// Nothing says that the sixth copy is not so.
fn sixth_and_copies(random: &mut Random, maker: &Maker, wall: &mut Wall) {
    in_sixth(random, maker, wall, any_cart);
    made::make_copies(&wall.control, &mut wall.played);
}

/// A held cart of a copy; without one there is a cart more.
fn change_held(random: &mut Random, maker: &Maker, copy: &mut [u8], change: fn(&mut Random, &Maker, &mut [u8])) {
    let held: Vec<usize> = (0..CARTS).filter(|cart| copy[UNIT * cart] == 1).collect();
    if held.is_empty() {
        return any_cart(random, maker, copy);
    }
    let cart = *random.pick(&held);
    change(random, maker, unit_of(copy, cart));
}

fn unit_of(copy: &mut [u8], cart: usize) -> &mut [u8] {
    &mut copy[UNIT * cart..UNIT * (cart + 1)]
}

fn letter(random: &mut Random, maker: &Maker, copy: &mut [u8]) {
    change_held(random, maker, copy, |random, _, unit| change_letter(random, unit));
}

/// Another letter in the title of a cart or a record.
fn change_letter(random: &mut Random, unit: &mut [u8]) {
    let place = 16 + random.below(usize::from(unit[1]));
    let letter = &mut unit[place];
    *letter = if *letter == b'~' { b'!' } else { *letter + 1 };
}

/// Another audio number, length or title.
fn field(random: &mut Random, maker: &Maker, copy: &mut [u8]) {
    change_held(random, maker, copy, |random, maker, unit| match random.below(3) {
        0 => change_amount(random, &mut unit[4..8]),
        1 => change_amount(random, &mut unit[8..12]),
        _ => {
            let other = maker.held_cart(random, 1);
            unit[1] = other[1];
            unit[16..].copy_from_slice(&other[16..]);
        }
    });
}

/// One bit of an audio number or a length, which stays above 0.
fn change_amount(random: &mut Random, bytes: &mut [u8]) {
    let place = random.below(4);
    bytes[place] ^= 1 << random.below(8);
    if bytes.iter().all(|byte| *byte == 0) {
        bytes[place] = 3;
    }
}

fn any_cart(random: &mut Random, maker: &Maker, copy: &mut [u8]) {
    let cart = random.below(CARTS);
    turn_cart(random, maker, copy, cart);
}

fn end_cart(random: &mut Random, maker: &Maker, copy: &mut [u8]) {
    let cart = *random.pick(&[0, CARTS - 1]);
    match copy[UNIT * cart] == 1 && random.percent(50) {
        true => change_letter(random, unit_of(copy, cart)),
        false => turn_cart(random, maker, copy, cart),
    }
}

/// A held cart becomes empty, an empty one held.
fn turn_cart(random: &mut Random, maker: &Maker, copy: &mut [u8], cart: usize) {
    let unit = unit_of(copy, cart);
    match unit[0] {
        1 => unit.fill(0),
        _ => unit.copy_from_slice(&maker.held_cart(random, cart as u16 + 1)),
    }
}

/// A copy becomes that of `other`, which is given what the copy has taken.
fn to_state(random: &mut Random, wall: &mut Wall, other: fn(&mut Random, u32, &Control) -> u32) {
    let copy = random.below(wall.control.studios as usize + 1);
    let n = other(random, made::taken(copy, &wall.control), &wall.control);
    let library = Log::new(&wall.control, &wall.played).library(n);
    wall.played.library.lent_mut()[COPY * copy..COPY * (copy + 1)].copy_from_slice(&library);
}

fn earlier(random: &mut Random, _: &Maker, wall: &mut Wall) {
    to_state(random, wall, |random, n, control| match random.percent(70) {
        true => n.saturating_sub(1),
        false => random.within(control.retired as usize, n as usize) as u32,
    });
}

fn later(random: &mut Random, _: &Maker, wall: &mut Wall) {
    to_state(random, wall, |random, n, control| match random.percent(70) {
        true => control.commits.min(n + 1),
        false => random.within(n as usize, control.commits as usize) as u32,
    });
}

fn exchanged(random: &mut Random, _: &Maker, wall: &mut Wall) {
    let last = wall.control.studios as usize;
    let (one, other) = (random.within(0, last - 1), last);
    let (before, after) = wall.played.library.lent_mut().split_at_mut(COPY * other);
    before[COPY * one..COPY * (one + 1)].swap_with_slice(&mut after[..COPY]);
}

fn applied(random: &mut Random, _: &Maker, wall: &mut Wall) {
    let place = random.below(wall.control.studios as usize);
    let sent = wall.control.sent[place];
    let least = sent.saturating_sub(32).max(wall.control.retired);
    wall.control.applied[place] = random.within(least as usize, sent as usize) as u32;
}

/// The log keeps so many of its transactions, and the records of the others are free. Counts and sessions are those of this many commits,
/// so that memory stays of the layout.
fn keep_transactions(wall: &mut Wall, count: usize) {
    let log = wall.played.log.lent_mut();
    let (transactions, free) = (log::transactions(log, &wall.control), log::free(log, &wall.control));
    let (kept, gone) = transactions.split_at(count.min(transactions.len()));
    let control = &mut wall.control;
    log::put_chains(log, control, kept, &[&free[..], &gone.concat()].concat());
    control.commits = control.retired + kept.len() as u32;
    control.sent.iter_mut().chain(&mut control.applied).for_each(|count| *count = control.commits.min(*count));
    for session in 1..=16 {
        let number = wall.control.commits.min(wall.number(session));
        left::set_number(&mut wall.played, session, number);
    }
}

fn without_last(_: &mut Random, _: &Maker, wall: &mut Wall) {
    let count = (wall.control.commits - wall.control.retired) as usize;
    keep_transactions(wall, count.saturating_sub(1));
}

fn without_log(_: &mut Random, _: &Maker, wall: &mut Wall) {
    keep_transactions(wall, 0);
}

/// A record that is used, if there is one: often the first of the log's chain or the last.
fn used_record(random: &mut Random, wall: &Wall) -> Option<usize> {
    let records = log::transactions(wall.played.log.lent(), &wall.control).concat();
    let last = records.len().checked_sub(1)?;
    Some(records[*random.pick(&[0, last, random.clone().within(0, last)])])
}

/// A record's operation; its links stay.
pub fn put_operation(record: &mut [u8], operation: &Unit) {
    record[..12].copy_from_slice(&operation[..12]);
    record[16..].copy_from_slice(&operation[16..]);
}

fn record(random: &mut Random, maker: &Maker, wall: &mut Wall) {
    let Some(at) = used_record(random, wall) else { return };
    let unit = &mut wall.played.log.lent_mut()[UNIT * at..UNIT * (at + 1)];
    match (unit[0], random.percent(30)) {
        (_, true) => put_operation(unit, &maker.logged(random)),
        (1 | 2, _) => change_letter(random, unit),
        (3, _) => change_amount(random, &mut unit[8..12]),
        _ => unit[2..4].copy_from_slice(&maker.cart(random).to_le_bytes()),
    }
}

/// An operation that does not meet its cart, in the place of one that does; and the copies are what the log makes then.
fn misfit(random: &mut Random, maker: &Maker, wall: &mut Wall) {
    let Some(at) = used_record(random, wall) else { return };
    let record = &mut wall.played.log.lent_mut()[UNIT * at..UNIT * (at + 1)];
    let mut operation = [0; UNIT];
    operation.copy_from_slice(record);
    maker.misfit(random, &mut operation);
    put_operation(record, &operation);
    made::make_copies(&wall.control, &mut wall.played);
}

fn sent(random: &mut Random, _: &Maker, wall: &mut Wall) {
    let place = random.below(wall.control.studios as usize);
    let applied = wall.control.applied[place];
    wall.control.sent[place] = random.within(applied as usize, wall.control.commits.min(applied + 32) as usize) as u32;
}

/// Other numbers, and reads that wait or no longer do.
fn sessions(random: &mut Random, maker: &Maker, wall: &mut Wall) {
    for session in wall.used_sessions() {
        let start = UNIT * (session as usize - 1);
        let unit = &mut wall.played.sessions.lent_mut()[start..start + UNIT];
        match random.percent(50) {
            true => unit.copy_from_slice(&maker.request(random)),
            false => unit.fill(0),
        }
        let number = random.within(0, wall.control.commits as usize) as u32;
        left::set_number(&mut wall.played, session, number);
    }
}

fn studio(random: &mut Random, _: &Maker, wall: &mut Wall) {
    let session = random.below(16);
    wall.control.session_studios[session] = random.within(1, wall.control.studios as usize) as u32;
}
