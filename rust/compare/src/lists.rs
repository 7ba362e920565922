//! The kinds of lists. A list's seed alone says its kind and its calls.

use crate::arguments::{self, CALLS, Taste};
use crate::asides;
use crate::chains::BREAKS;
use crate::chaos;
use crate::coverage::outcome;
use crate::direct;
use crate::guided::{self, Aim};
use crate::keys::{ANSWERS_UNREACHED, DONE, LOADED_MADE, RAISED, RAISED_UNREACHED};
use crate::make::Maker;
use crate::played::Played;
use crate::player::{Mismatch, Player};
use crate::random::Random;
use crate::sweep;
use crate::torn;
use crate::wall::Wall;
use crate::written::{self, Written};

/// Those that take long come last, so that a wrong engine is caught soon.
const KINDS: [&str; 25] = [
    "direct",
    "damage",
    "mixed",
    "chains",
    "taken",
    "window",
    "forwards",
    "moves",
    "restarts",
    "waits",
    "chaos",
    "titles",
    "loads",
    "weeks",
    "older",
    "direct",
    "damage",
    "mixed",
    "control sweep",
    "lengths",
    "eights",
    "memory sweep",
    "input sweep",
    "varied",
    "ones",
];

/// The transactions of a list of weeks: more operations than the log holds; and in one of so many lists 2,000.
pub const FEW: u32 = 150;
pub const MANY: u32 = 2_000;
const MANY_EACH: usize = 24;

pub fn kind(seed: u64) -> &'static str {
    KINDS[(seed % KINDS.len() as u64) as usize]
}

/// How many lists of its kind come before a seed's, modulo 1,000.
pub fn turn(seed: u64) -> usize {
    (seed / KINDS.len() as u64 % 1_000) as usize
}

pub fn play(player: &mut Player<'_>, seed: u64) -> Result<(), Mismatch> {
    player.begin_list(seed);
    let turn = turn(seed);
    match kind(seed) {
        "mixed" => guided::play(player, seed, Aim::Mixed),
        "waits" => guided::play(player, seed, Aim::Waits),
        "window" => guided::play(player, seed, Aim::Window),
        "titles" => guided::play(player, seed, Aim::Titles),
        "eights" => guided::play(player, seed, Aim::Eights),
        "varied" => guided::play(player, seed, Aim::Varied),
        "ones" => guided::play(player, seed, Aim::Ones),
        "older" => guided::play(player, seed, Aim::Older),
        "taken" => guided::play(player, seed, Aim::Taken),
        "forwards" => guided::play(player, seed, Aim::Forwards),
        "moves" => guided::play(player, seed, Aim::Moves),
        "restarts" => guided::play(player, seed, Aim::Restarts),
        "weeks" => guided::play(player, seed, Aim::Weeks(if turn % MANY_EACH == 1 { MANY } else { FEW })),
        "loads" => loads(player, seed),
        "chains" => chains(player, seed),
        "direct" => unreached(player, seed),
        "damage" => damage(player, seed),
        "memory sweep" => sweep::memory(player, seed, turn),
        "control sweep" => sweep::control(player, seed),
        "input sweep" => sweep::input(player, seed, turn),
        "lengths" => sweep::lengths(player, seed),
        _ => chaos::play(player, seed),
    }
}

/// Only lists from fresh systems, and over what these leave: for the one-copy order alone, for what S-7 and S-8 say of them alone, and for
/// fresh vans.
pub fn play_fresh(player: &mut Player<'_>, seed: u64) -> Result<(), Mismatch> {
    player.begin_list(seed);
    let reads = [Aim::Waits, Aim::Titles, Aim::Mixed, Aim::Window, Aim::Older];
    let aims = [&reads[..], &[Aim::Taken, Aim::Forwards, Aim::Moves, Aim::Restarts, Aim::Weeks(FEW)]].concat();
    guided::play(player, seed, aims[seed as usize % aims.len()])
}

/// Lists from memory of the layout that no list reaches. The messages of the last one go to vans, the first ones among them.
fn unreached(player: &mut Player<'_>, seed: u64) -> Result<(), Mismatch> {
    let mut random = Random::new(seed);
    let taste = Taste { weights: [25, 15, 30, 18, 12, 12, 16, 14, 14, 5, 18], sizes: (1, 8), fitting: 92, misfits: 8 };
    let (raised, walked) = (player.coverage.met(&RAISED), player.coverage.watched_moved);
    for _ in 0..8 {
        let maker = Maker::new(&mut random, 6);
        let mut wall = direct::wall(&mut random, &maker);
        player.written = Written::before(&wall);
        for _ in 0..50 {
            let call = arguments::call(&mut random, &maker, &taste, &wall);
            player.play_on(&mut wall, &call)?;
        }
        written::write_first(player, &mut wall, 5)?;
    }
    if player.coverage.met(&RAISED) > raised {
        player.coverage.count((RAISED_UNREACHED, 0, DONE));
    }
    if player.coverage.watched_moved > walked {
        player.coverage.count((ANSWERS_UNREACHED, 0, DONE));
    }
    Ok(())
}

/// Memory of one to four studios that the log makes and no list leaves: copies of it that are torn, and a list over it. Then the sweep.
fn loads(player: &mut Player<'_>, seed: u64) -> Result<(), Mismatch> {
    let mut random = Random::new(seed);
    for studios in 1..=4 {
        let carts = *random.pick(&[3, 6, 40, 128]);
        let maker = Maker::new(&mut random, carts);
        let mut wall = torn::made_wall(studios, &mut random, &maker);
        player.load(&mut wall)?;
        torn::play(player, &mut random, &maker, &wall)?;
        over(player, &mut random, &maker, wall)?;
    }
    torn::sweep(player, &mut random)
}

/// A list over loaded memory.
fn over(player: &mut Player<'_>, random: &mut Random, maker: &Maker, mut wall: Wall) -> Result<(), Mismatch> {
    let taste = Taste { weights: [20, 12, 22, 22, 22, 4, 14, 6, 14, 2, 12], sizes: (1, 3), fitting: 95, misfits: 20 };
    let mut list = Played::over(&wall);
    player.written = Written::before(&wall);
    player.coverage.note_loaded(&wall);
    player.coverage.count((LOADED_MADE, 0, DONE));
    for _ in 0..50 {
        let call = arguments::call(random, maker, &taste, &wall);
        list.play(player, &mut wall, call)?;
    }
    list.end(player)
}

/// Damage of every kind to memory that has a place for every kind.
fn damage(player: &mut Player<'_>, seed: u64) -> Result<(), Mismatch> {
    let mut random = Random::new(seed);
    let taste = Taste { weights: [1; CALLS], sizes: (1, 8), fitting: 75, misfits: 5 };
    for _ in 0..10 {
        let maker = Maker::new(&mut random, 6);
        let wall = direct::wall(&mut random, &maker);
        for _ in 0..60 {
            let call = arguments::call(&mut random, &maker, &taste, &wall);
            asides::damaged(player, &mut random, &wall, &call)?;
        }
    }
    Ok(())
}

/// The log's chains broken in every way, under every call.
fn chains(player: &mut Player<'_>, seed: u64) -> Result<(), Mismatch> {
    let mut random = Random::new(seed);
    let maker = Maker::new(&mut random, 6);
    for (name, change) in BREAKS {
        let wall = loop {
            let wall = direct::wall(&mut random, &maker);
            if change(&mut random, &mut wall.clone()) {
                break wall;
            }
        };
        for kind in 0..CALLS {
            let taste = Taste { weights: arguments::only(kind), sizes: (1, 8), fitting: 90, misfits: 5 };
            let call = arguments::call(&mut random, &maker, &taste, &wall);
            let answer = player.play_aside(&wall, &call, |wall| {
                change(&mut random, wall);
            })?;
            player.coverage.count((name, 0, outcome(&answer)));
        }
    }
    Ok(())
}

#[cfg(test)]
mod tests {
    use super::*;
    use crate::engine::Simulated;
    use crate::player::Judge;

    #[test]
    fn every_kind_of_list_passes_and_is_repeatable() {
        for seed in 0..KINDS.len() as u64 {
            let calls = [0, 1].map(|_| {
                let mut engine = Simulated;
                let mut player = Player::new(&mut engine, Judge::All);
                play(&mut player, seed).expect("the simulator agrees with itself");
                player.calls
            });
            assert_eq!(calls[0], calls[1]);
        }
    }
}
