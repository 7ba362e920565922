//! How the cost of a call grows: with the transactions to walk along, and with the cart numbers asked.

use crate::call::Call;
use crate::clock::Race;
use crate::measure::{self, Timing};
use crate::units;
use crate::wall::{self, Wall};
use std::rc::Rc;

/// The engine's call and the test that it is held to on the same memory (the layout test, or a copy's form test), by how many there are of
/// what grows.
pub struct Point {
    pub at: u32,
    pub test: Timing,
    pub call: Timing,
}

pub fn point(race: &mut Race, name: &str, at: u32, wall: &Wall, call: Call) -> Point {
    let shared = measure::share(wall);
    let test = measure::layout(race, &shared);
    Point { at, test, call: measure::engine(race, name, &Rc::new(call), &shared) }
}

/// Refresh of one operation by how many transactions of the log the studio has applied: the walk's length. Memory is the same.
pub fn refresh(race: &mut Race, wall: &Wall) -> Vec<Point> {
    let mut at = |walked: u32| {
        let (mut behind, applied) = (wall.clone(), wall.control.retired + walked);
        behind.control.applied[0] = applied;
        behind.control.sent[0] = applied + 1;
        point(race, "growth", walked, &behind, Call::Refresh { studio: wall::REFRESHED })
    };
    [0, 63, 126, 252, 503].map(&mut at).into()
}

/// Commit of one operation by how many transactions there are in a log of 504 records.
pub fn commit(race: &mut Race) -> Vec<Point> {
    let mut at = |each: usize| {
        let wall = Wall::full(504, each);
        let operations = units::retitle(1, &units::title(1, 64)).to_vec();
        let logged = wall.control.commits - wall.control.retired;
        point(race, "growth", logged, &wall, Call::Commit { session: wall::READER, operations })
    };
    [8, 4, 2, 1].map(&mut at).into()
}

/// Read by how many numbers are asked.
pub fn numbers(race: &mut Race, wall: &Wall) -> Vec<Point> {
    let mut at = |count: u32| {
        let request = units::by_numbers(count as usize);
        point(race, "growth", count, wall, Call::Read { session: wall::READER, request })
    };
    [1, 2, 4, 8, 16, 32].map(&mut at).into()
}
