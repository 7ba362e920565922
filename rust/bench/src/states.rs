//! The states that are measured, each with the calls to time on it.

use crate::call::Call;
use crate::units;
use crate::wall::{self, Wall};
use simulator::UNIT;
use std::rc::Rc;

pub struct State {
    pub name: &'static str,
    pub what: &'static str,
    pub wall: Wall,
    pub calls: Vec<(&'static str, Kind, Rc<Call>)>,
}

/// The name of the state that a bar may be taken on alone.
pub const FULL: &str = "full";

/// Which bar a call is held to.
#[derive(Clone, Copy, PartialEq, Eq)]
pub enum Kind {
    /// Commit and refresh.
    Write,
    Preview,
    /// Reads and collects by title.
    Title,
    /// Forwards by numbers.
    Forward,
    /// Forwards by title.
    ForwardTitle,
    Move,
    Load,
    Retire,
    /// Every other call that begins with the layout test.
    Other,
}

/// One operation on each of the carts that the first calls of `Wall::typical` make.
fn operations(operation: impl Fn(usize) -> [u8; UNIT]) -> Vec<u8> {
    (0..8).flat_map(|i| operation(i * 29 % 128 + 1)).collect()
}

fn calls(letters: &[u8], operations: Vec<u8>, is_empty: bool) -> Vec<(&'static str, Kind, Rc<Call>)> {
    let session = wall::READER;
    let first = operations[..UNIT].to_vec();
    let read = |request| Call::Read { session, request };
    let (title, thirty_two) = (units::by_title(letters), units::by_numbers(32));
    let mut calls = vec![
        ("commit, 1 operation", Kind::Write, Call::Commit { session, operations: first.clone() }),
        ("commit, 8 operations", Kind::Write, Call::Commit { session, operations: operations.clone() }),
        ("preview, 1 operation", Kind::Preview, Call::Preview { session, operations: first }),
        ("preview, 8 operations", Kind::Preview, Call::Preview { session, operations }),
        ("read, 1 number", Kind::Other, read(units::by_numbers(1))),
        ("read, 32 numbers", Kind::Other, read(thirty_two)),
        ("read, title", Kind::Title, read(title)),
        ("collect, 32 numbers", Kind::Other, Call::Collect { session: wall::NUMBERS_COLLECTOR }),
        ("collect, title", Kind::Title, Call::Collect { session: wall::TITLE_COLLECTOR }),
        ("forward, studio, 32", Kind::Forward, Call::Forward { session, request: thirty_two }),
        ("forward, studio, title", Kind::ForwardTitle, Call::Forward { session, request: title }),
        ("move", Kind::Move, Call::Move { session, studio: wall::MOVED_TO }),
        ("load", Kind::Load, Call::Load),
    ];
    if !is_empty {
        let by_head_end = |request| Call::Forward { session: wall::WAITING_READER, request };
        calls.extend([
            ("send", Kind::Other, Call::Send { studio: wall::SENT }),
            ("refresh", Kind::Write, Call::Refresh { studio: wall::REFRESHED }),
            ("retire", Kind::Retire, Call::Retire),
            ("read, waits", Kind::Other, Call::Read { session: wall::WAITING_READER, request: thirty_two }),
            ("collect, waits", Kind::Other, Call::Collect { session: wall::WAITING_COLLECTOR }),
            ("forward, head end, 1", Kind::Forward, by_head_end(units::by_numbers(1))),
            ("forward, head end, 32", Kind::Forward, by_head_end(thirty_two)),
            ("forward, head end, title", Kind::ForwardTitle, by_head_end(title)),
        ]);
    }
    calls.into_iter().map(|(name, kind, call)| (name, kind, Rc::new(call))).collect()
}

pub fn empty() -> State {
    let letters = units::title(7, 20);
    let make = |cart| units::new(cart, &units::title(cart, 20));
    State {
        name: "empty",
        what: "2 studios, no cart, no commit (nothing to send, refresh or wait for)",
        wall: Wall::empty(),
        calls: calls(&letters, operations(make), true),
    }
}

pub fn typical() -> State {
    let letters = units::title(30, 12 + 30 * 5 % 29);
    let retitle = |cart| units::retitle(cart, &units::title(cart, 20));
    State {
        name: "typical",
        what: "2 studios, 40 carts, 60 commits of 1 or 2 operations, 20 of them retired",
        wall: Wall::typical(),
        calls: calls(&letters, operations(retitle), false),
    }
}

/// 504 records, so that commits are accepted, one to a transaction: the longest walk.
pub fn full() -> State {
    let retitle = |cart| units::retitle(cart, &units::title(cart, 64));
    State {
        name: FULL,
        what: "4 studios, 6 x 128 held carts, titles of 64, 504 commits of 1 operation after 16 retired, 16 sessions",
        wall: Wall::full(504, 1),
        calls: calls(&units::title(7, 64), operations(retitle), false),
    }
}

/// The same with the log's records in another order.
pub fn shuffled() -> State {
    let full = full();
    State { name: "shuffled", what: "the same memory, but that no record leads to its neighbour", wall: full.wall.shuffled(), ..full }
}
