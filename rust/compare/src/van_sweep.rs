//! Sweeps of what a receive is lent (02's S-6): every byte of a message, of a cart of the van's copy, and of the whole copy.

use crate::delivery::Delivery;
use crate::direct;
use crate::keys::DONE;
use crate::lent::Part;
use crate::make::Maker;
use crate::message::{self, HEAD};
use crate::player::{Mismatch, Player};
use crate::random::Random;
use crate::sweep::values;
use simulator::{CARTS, COPY, UNIT};
use std::ops::Range;

/// Messages by the kind of their operation, then carts of a copy, then the whole copy and the longest message.
pub const SWEEPS: [&str; 8] = [
    "sweep of a message with a new",
    "sweep of a message with a retitle",
    "sweep of a message with a re-cut",
    "sweep of a message with a withdraw",
    "sweep of a held cart of a van",
    "sweep of an empty cart of a van",
    "sweep of a van's whole copy",
    "sweep of a message of eight operations",
];

/// The sweep that comes after a list of this kind; `turn` says of what.
pub fn play(player: &mut Player<'_>, random: &mut Random, kind: &str, turn: usize) -> Result<(), Mismatch> {
    let maker = Maker::new(random, 10);
    let swept = match kind {
        "input sweep" if turn.is_multiple_of(2) => turn / 2 % 4,
        "memory sweep" if turn.is_multiple_of(2) => 4 + turn / 2 % 2,
        "lengths" if turn.is_multiple_of(4) => 6 + turn / 4 % 2,
        _ => return Ok(()),
    };
    match swept {
        0..=3 => message(player, random, &maker, swept as u8 + 1)?,
        4..=5 => cart(player, random, &maker, swept == 4)?,
        6 => copy(player, random, &maker)?,
        _ => longest(player, random, &maker)?,
    }
    player.coverage.count((SWEEPS[swept], 0, DONE));
    Ok(())
}

/// A van with a copy of the layout, and a message for it.
fn van(random: &mut Random, maker: &Maker) -> Delivery {
    let mut copy = vec![0; COPY];
    direct::fill_copy(random, maker, &mut copy);
    let number = *random.pick(&[1, 2, 256, 257, 65_535]);
    Delivery::new(&copy, number - 1, &maker.message(random, number, 1))
}

/// Every byte of a message with an operation of this kind, each with a row of values.
fn message(player: &mut Player<'_>, random: &mut Random, maker: &Maker, kind: u8) -> Result<(), Mismatch> {
    let mut van = van(random, maker);
    let cart = maker.cart(random);
    van.message.lent_mut()[HEAD..].copy_from_slice(&maker.operation(random, kind, cart));
    let bytes = 0..van.message.len();
    sweep(player, random, &van, |van| &mut van.message, bytes, |_, old| values(old).collect())
}

/// Every byte of one cart of the copy, each with a row of values.
fn cart(player: &mut Player<'_>, random: &mut Random, maker: &Maker, held: bool) -> Result<(), Mismatch> {
    let mut van = van(random, maker);
    let start = UNIT * random.below(CARTS);
    let cart = if held { maker.held_cart(random, (start / UNIT) as u16 + 1) } else { [0; UNIT] };
    van.copy.lent_mut()[start..start + UNIT].copy_from_slice(&cart);
    sweep(player, random, &van, |van| &mut van.copy, start..start + UNIT, |_, old| values(old).collect())
}

/// Every byte of the whole copy, each with one of the row's values.
fn copy(player: &mut Player<'_>, random: &mut Random, maker: &Maker) -> Result<(), Mismatch> {
    let van = van(random, maker);
    sweep(player, random, &van, |van| &mut van.copy, 0..COPY, one_value)
}

/// Every byte of a message of eight operations, each with one of the row's values.
fn longest(player: &mut Player<'_>, random: &mut Random, maker: &Maker) -> Result<(), Mismatch> {
    let mut van = van(random, maker);
    let longest = maker.message(random, message::number(van.message.lent()), 8);
    van.message.set(&longest);
    sweep(player, random, &van, |van| &mut van.message, 0..longest.len(), one_value)
}

fn one_value(random: &mut Random, old: u8) -> Vec<u8> {
    vec![*random.pick(&values(old).collect::<Vec<u8>>())]
}

/// Receives with one byte changed: each of these bytes of one part to each of its values, the message's number being the next, held or ahead.
fn sweep(
    player: &mut Player<'_>,
    random: &mut Random,
    van: &Delivery,
    part: fn(&mut Delivery) -> &mut Part,
    bytes: Range<usize>,
    values: fn(&mut Random, u8) -> Vec<u8>,
) -> Result<(), Mismatch> {
    let number = message::number(van.message.lent());
    for at in bytes {
        let old = part(&mut van.clone()).byte(at);
        for value in values(random, old) {
            let mut changed = van.clone();
            part(&mut changed).lent_mut()[at] = value;
            changed.applied = *random.pick(&[number - 1, number - 1, number, number.saturating_sub(2)]);
            player.receive(&mut changed)?;
        }
    }
    Ok(())
}
