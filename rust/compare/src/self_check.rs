//! Every wrong engine must be caught; the simulator itself must not be.

use crate::conversions;
use crate::engine::Simulated;
use crate::lists;
use crate::player::{Judge, Mismatch, Player};
use crate::run::{self, Found};
use crate::vans;
use crate::wrong::{self, Alone, Mistake, Wrong};
use std::sync::Mutex;
use std::sync::atomic::{AtomicUsize, Ordering};

/// Calls, and conversions without the simulator, after which a wrong engine counts as not caught.
const PATIENCE: u64 = 60_000;
const SEED: u64 = 1_000;

/// Runs everything; returns how many checks failed.
pub fn run() -> usize {
    let mut failed = usize::from(!simulator_passes());
    let mistakes = wrong::all();
    let lines = Mutex::new(vec![None; mistakes.len()]);
    let next = AtomicUsize::new(0);
    let work = || {
        loop {
            let at = next.fetch_add(1, Ordering::Relaxed);
            let Some(mistake) = mistakes.get(at) else { break };
            let line = try_mistake(mistake);
            lines.lock().expect("no thread panics")[at] = Some(line);
        }
    };
    std::thread::scope(|scope| {
        scope.spawn(work);
        scope.spawn(work);
    });
    for (caught, line) in lines.into_inner().expect("no thread panics").into_iter().flatten() {
        println!("{line}");
        failed += usize::from(!caught);
    }
    println!("wrong engines: {}, not caught: {failed}", mistakes.len());
    failed
}

fn simulator_passes() -> bool {
    let played = run::play_lists(&mut Simulated, (SEED, 1), 20_000);
    match &played {
        Ok((_, calls)) => println!("passes  the simulator itself, {calls} calls"),
        Err(found) => {
            println!("FAILS   the simulator itself");
            run::print_mismatch(found);
        }
    }
    played.is_ok()
}

/// Whether one mistake was caught in every way it must be, and a line on it.
fn try_mistake(mistake: &Mistake) -> (bool, String) {
    let compared = run::play_lists(&mut Wrong::new(mistake), (SEED, 1), PATIENCE);
    let (mut caught, mut line) = match &compared {
        Ok(_) => (false, format!("MISSED  {}", mistake.name)),
        Err(Found { seed, mismatch }) => {
            let place = format!("list {seed}, call {}", mismatch.call_number);
            (true, format!("caught  {}\n          {place}: {}", mistake.name, mismatch.words))
        }
    };
    for alone in alone(mistake) {
        caught &= alone.is_some();
        line.push_str(&format!("\n          {}", alone.unwrap_or("MISSED without the simulator".to_string())));
    }
    (caught, line)
}

/// What each judge that must catch a mistake without the simulator says of it.
fn alone(mistake: &Mistake) -> Vec<Option<String>> {
    match mistake.alone {
        Alone::Nothing => Vec::new(),
        Alone::Order => vec![caught_alone(mistake, Judge::Order, lists::play_fresh)],
        Alone::Walks => [Judge::Order, Judge::Walks].map(|judge| caught_alone(mistake, judge, lists::play_fresh)).to_vec(),
        Alone::Unmoved => vec![caught_alone(mistake, Judge::Unmoved, lists::play_fresh)],
        Alone::Restarts => vec![caught_alone(mistake, Judge::Restarts, lists::play_fresh)],
        Alone::Copies => [Judge::Order, Judge::Restarts].map(|judge| caught_alone(mistake, judge, lists::play_fresh)).to_vec(),
        Alone::Vans => vec![caught_alone(mistake, Judge::Order, |player, seed| {
            lists::play_fresh(player, seed).and_then(|()| vans::play_fresh(player, seed))
        })],
        Alone::Conversions => vec![caught_alone(mistake, Judge::Order, conversions::play)],
    }
}

/// How lists from fresh systems, or what is played beside them, catch a mistake without the simulator.
fn caught_alone(mistake: &Mistake, judge: Judge, play: fn(&mut Player<'_>, u64) -> Result<(), Mismatch>) -> Option<String> {
    let mut engine = Wrong::new(mistake);
    let mut player = Player::new(&mut engine, judge);
    let mut seed = SEED;
    while player.calls + player.coverage.conversions < PATIENCE {
        if let Err(mismatch) = play(&mut player, seed) {
            return Some(format!("list {seed} alone, {}", mismatch.words));
        }
        seed += 1;
    }
    None
}
