//! Runs of many lists on two threads.

use crate::conversions;
use crate::coverage::Coverage;
use crate::engine::Engine;
use crate::lists;
use crate::player::{Judge, Mismatch, Player};
use crate::searches;
use crate::vans;

/// As much stack as a main thread has.
const STACK: usize = 8 << 20;

pub struct Found {
    pub seed: u64,
    pub mismatch: Mismatch,
}

/// Plays lists, searches, vans and conversions of seeds `seed`, `seed` + step, … until enough calls were made.
pub fn play_lists(engine: &mut dyn Engine, (seed, step): (u64, u64), calls: u64) -> Result<(Coverage, u64), Found> {
    let mut player = Player::new(engine, Judge::All);
    let mut seed = seed;
    while player.calls < calls {
        play_seed(&mut player, seed).map_err(|mismatch| Found { seed, mismatch })?;
        seed = seed.wrapping_add(step);
    }
    let calls = player.calls;
    Ok((player.coverage, calls))
}

/// The same on several threads, each with an engine of its own.
pub fn play_on_threads(make: fn() -> Box<dyn Engine>, seed: u64, calls: u64, threads: u64) -> Result<(Coverage, u64), Found> {
    let start = |thread: u64| {
        let work = move || {
            let seeds = (seed.wrapping_add(thread), threads);
            play_lists(&mut *make(), seeds, calls.div_ceil(threads))
        };
        std::thread::Builder::new().stack_size(STACK).spawn(work).expect("a thread")
    };
    let started: Vec<_> = (0..threads).map(start).collect();
    let mut sum = (Coverage::default(), 0);
    for thread in started {
        let (coverage, calls) = thread.join().expect("a thread that ends")?;
        sum.0.add(coverage);
        sum.1 += calls;
    }
    Ok(sum)
}

/// The list of a seed, and the searches, vans and conversions after it.
fn play_seed(player: &mut Player<'_>, seed: u64) -> Result<(), Mismatch> {
    lists::play(player, seed)?;
    searches::play(player, seed)?;
    vans::play(player, seed)?;
    conversions::play(player, seed)
}

pub fn print_mismatch(found: &Found) {
    let Found { seed, mismatch } = found;
    println!("MISMATCH");
    println!("  list seed: {seed} ({})", lists::kind(*seed));
    println!("  call number: {}", mismatch.call_number);
    println!("  call: {}", mismatch.call);
    println!("  {}", mismatch.words);
    println!("  again: compare --list {seed}");
}
