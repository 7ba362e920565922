//! Calls on a changed copy of a wall, which itself stays as it was: wrong
//! lengths, damage, arbitrary control words, setups.

use crate::arguments::{self, CALLS, Taste};
use crate::call::Call;
use crate::damage;
use crate::lent::Part;
use crate::make::Maker;
use crate::player::{Mismatch, Player};
use crate::random::Random;
use crate::wall::Wall;
use simulator::{Control, REFUSED};

pub fn play(player: &mut Player<'_>, random: &mut Random, maker: &Maker, taste: &Taste, wall: &Wall) -> Result<(), Mismatch> {
    let even = Taste { weights: [1; CALLS], sizes: (1, 8), fitting: taste.fitting.min(70), misfits: taste.misfits };
    let call = match random.percent(15) {
        true => arguments::setup(random, 50),
        false => arguments::call(random, maker, &even, wall),
    };
    match random.below(8) {
        0..=1 => lengths(player, random, wall, &call),
        2 => twisted(player, random, wall, &call),
        3 => both(player, random, wall, &call),
        _ => damaged(player, random, wall, &call),
    }
}

/// One memory, or all of them, of another length.
pub fn lengths(player: &mut Player<'_>, random: &mut Random, wall: &Wall, call: &Call) -> Result<(), Mismatch> {
    player.play_aside(wall, call, |wall| wrong_length(random, wall)).map(|_| ())
}

pub fn wrong_length(random: &mut Random, wall: &mut Wall) {
    let lent = &mut wall.played;
    match random.below(4) {
        0 => stretch(random, &mut lent.library),
        1 => stretch(random, &mut lent.log),
        2 => stretch(random, &mut lent.sessions),
        _ => {
            stretch(random, &mut lent.library);
            stretch(random, &mut lent.log);
            stretch(random, &mut lent.sessions);
        }
    }
}

fn stretch(random: &mut Random, part: &mut Part) {
    let right = part.len();
    let length = *random.pick(&[0, 1, 79, 80, right - 80, right - 1, right + 1, right + 80]);
    resize(part, length);
}

pub fn resize(part: &mut Part, length: usize) {
    let mut bytes = part.lent().to_vec();
    bytes.resize(length, 0);
    part.set(&bytes);
}

/// One field out of its rule.
pub fn damaged(player: &mut Player<'_>, random: &mut Random, wall: &Wall, call: &Call) -> Result<(), Mismatch> {
    let mut made = None;
    let answer = player.play_aside(wall, call, |wall| made = damage::damage(random, wall))?;
    if let (Some(made), REFUSED, 2) = (made, answer.kind, answer.value) {
        player.coverage.count((made.name, 0, 2));
        if let Some(copy) = made.copy {
            player.coverage.count((damage::COPIES, copy, 2));
        }
    }
    Ok(())
}

/// Damage and a wrong length at once.
fn both(player: &mut Player<'_>, random: &mut Random, wall: &Wall, call: &Call) -> Result<(), Mismatch> {
    let change = |wall: &mut Wall| {
        damage::damage(random, wall);
        wrong_length(random, wall);
    };
    player.play_aside(wall, call, change).map(|_| ())
}

/// Control words of any size.
fn twisted(player: &mut Player<'_>, random: &mut Random, wall: &Wall, call: &Call) -> Result<(), Mismatch> {
    let change = |wall: &mut Wall| {
        for _ in 0..random.within(1, 3) {
            let value = any_word(random);
            *word(&mut wall.control, random.below(WORDS)) = value;
        }
    };
    player.play_aside(wall, call, change).map(|_| ())
}

pub fn any_word(random: &mut Random) -> u32 {
    let any = random.word();
    *random.pick(&[0, 1, 2, 4, 5, 31, 32, 33, 511, 512, 513, 65_534, 65_535, 65_536, 1 << 31, u32::MAX, any])
}

pub const WORDS: usize = 31;

/// One word of the control, counted in its order from 0 to 30.
pub fn word(control: &mut Control, at: usize) -> &mut u32 {
    match at {
        0 => &mut control.studios,
        1..=16 => &mut control.session_studios[at - 1],
        17 => &mut control.used,
        18 => &mut control.commits,
        19..=22 => &mut control.sent[at - 19],
        23..=26 => &mut control.applied[at - 23],
        27 => &mut control.retired,
        28 => &mut control.oldest,
        29 => &mut control.free_first,
        _ => &mut control.free_last,
    }
}
