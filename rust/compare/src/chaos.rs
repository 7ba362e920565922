//! Bytes and words without any plan: many damages at once, links in circles,
//! memory of one byte or of random ones. Every call must still end.

use crate::arguments::{self, CALLS, Taste};
use crate::asides;
use crate::direct;
use crate::lent::{Lent, Part};
use crate::make::Maker;
use crate::player::{Mismatch, Player};
use crate::random::Random;
use crate::wall::Wall;

pub fn play(player: &mut Player<'_>, seed: u64) -> Result<(), Mismatch> {
    let mut random = Random::new(seed);
    let taste = Taste { weights: [1; CALLS], sizes: (1, 8), fitting: 80, misfits: 5 };
    for _ in 0..10 {
        let maker = Maker::new(&mut random, 6);
        let wall = direct::wall(&mut random, &maker);
        for _ in 0..40 {
            let call = match random.percent(5) {
                true => arguments::setup(&mut random, 70),
                false => arguments::call(&mut random, &maker, &taste, &wall),
            };
            player.play_aside(&wall, &call, |wall| change(&mut random, wall))?;
        }
    }
    Ok(())
}

fn change(random: &mut Random, wall: &mut Wall) {
    match random.below(6) {
        0 => circles(random, wall),
        1 => one_byte(random, wall),
        2 => noise(random, wall),
        3 => words(random, wall),
        4 => exchange(random, wall),
        _ => {
            scatter(random, wall);
            words(random, wall);
        }
    }
}

fn any_part<'a>(random: &mut Random, lent: &'a mut Lent) -> &'a mut Part {
    match random.below(3) {
        0 => &mut lent.library,
        1 => &mut lent.log,
        _ => &mut lent.sessions,
    }
}

/// Links that lead back, to themselves, or outside.
fn circles(random: &mut Random, wall: &mut Wall) {
    let log = wall.played.log.lent_mut();
    for _ in 0..random.within(1, 20) {
        let record = random.below(512);
        let at = 80 * record + *random.pick(&[12, 14]);
        let to = *random.pick(&[1, 2, record + 1, record, 513, 65_535]) as u16;
        log[at..at + 2].copy_from_slice(&to.to_le_bytes());
    }
    let (any, control) = (random.within(1, 512) as u32, &mut wall.control);
    control.used = *random.pick(&[control.used, 512]);
    control.commits = *random.pick(&[control.commits, 511, 512, 65_535]);
    control.oldest = *random.pick(&[control.oldest, any]);
    control.free_first = *random.pick(&[control.free_first, control.oldest, any]);
}

/// One memory of one byte throughout.
fn one_byte(random: &mut Random, wall: &mut Wall) {
    let byte = *random.pick(&[0, 1, 2, 4, 32, 127, 128, 255]);
    any_part(random, &mut wall.played).lent_mut().fill(byte);
}

/// One memory of random bytes.
fn noise(random: &mut Random, wall: &mut Wall) {
    let part = any_part(random, &mut wall.played);
    part.lent_mut().iter_mut().for_each(|byte| *byte = random.byte());
}

/// Some random bytes here and there.
fn scatter(random: &mut Random, wall: &mut Wall) {
    for _ in 0..random.within(1, 6) {
        let part = any_part(random, &mut wall.played);
        let at = random.below(part.len());
        part.lent_mut()[at] = random.byte();
    }
}

/// Every control word anything.
fn words(random: &mut Random, wall: &mut Wall) {
    for at in 0..asides::WORDS {
        if random.percent(30) {
            *asides::word(&mut wall.control, at) = asides::any_word(random);
        }
    }
}

/// Two units of one memory change places.
fn exchange(random: &mut Random, wall: &mut Wall) {
    let part = any_part(random, &mut wall.played);
    let units = part.len() / 80;
    let (one, other) = (80 * random.below(units), 80 * random.below(units));
    let bytes = part.lent_mut();
    (0..80).for_each(|at| bytes.swap(one + at, other + at));
}
