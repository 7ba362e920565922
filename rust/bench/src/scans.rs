//! The scans of the lower crate, exported by crate carts_c: timed against the floor and against plain Rust.

use crate::clock::{Entry, Race};
use crate::wall::Wall;
use crate::{floor, plain, units};
use linked::carts;
use simulator::{CARTS, COPY, LIBRARY, LOG, SESSION_MEMORY, UNIT};
use std::hint::black_box;
use std::rc::Rc;

type Test = fn(&[u8]) -> bool;

/// One test by engine, floor and plain Rust.
type Ways = [Test; 3];

const ZERO: Ways = [carts::all_zero, floor::is_zero, plain::is_zero];
const COPIES: Ways = [carts::is_copy, floor::is_copy, plain::is_copy];
const OPERATIONS: Ways = [carts::all_operations, floor::are_operations, plain::are_operations];

/// A scan in the race.
pub struct Scan {
    pub name: &'static str,
    pub engine: Entry,
    pub floor: Entry,
    pub plain: Entry,
}

/// Operations of all kinds in turn, as handed in.
fn operations(count: usize) -> Vec<u8> {
    let operation = |i: usize| {
        let cart = i % CARTS + 1;
        match i * 7 % 11 % 4 {
            0 => units::new(cart, &units::title(cart, 20)),
            1 => units::retitle(cart, &units::title(cart, 20)),
            2 => units::recut(cart, 7),
            _ => units::withdraw(cart),
        }
    };
    (0..count).flat_map(operation).collect()
}

/// The three ways agree: the bytes pass, and with one byte damaged they do not.
fn agree(name: &str, ways: Ways, bytes: &[u8]) {
    for way in ways {
        assert!(way(bytes), "{name}: refused");
    }
    for unit in (0..bytes.len()).step_by(UNIT) {
        let mut damaged = bytes.to_vec();
        damaged[unit + unit / UNIT % UNIT] ^= 0x80;
        let verdicts = ways.map(|way| way(&damaged));
        assert!(verdicts[0] == verdicts[1] && verdicts[0] == verdicts[2], "{name}: the three differ on a damaged byte");
    }
}

fn scan(race: &mut Race, name: &'static str, ways: Ways, bytes: Vec<u8>) -> Scan {
    agree(name, ways, &bytes);
    time(race, name, ways, &Rc::from(bytes))
}

/// The three ways in the race, on the same input.
pub fn time<I: ?Sized + 'static, A: 'static>(race: &mut Race, name: &'static str, ways: [fn(&I) -> A; 3], input: &Rc<I>) -> Scan {
    let [engine, floor, plain] = ways.map(|way| {
        let input = Rc::clone(input);
        race.add(move || {
            black_box(way(black_box(&input)));
        })
    });
    Scan { name, engine, floor, plain }
}

pub fn enter(race: &mut Race, typical: &Wall, full: &Wall) -> Vec<Scan> {
    let head_end = |wall: &Wall| wall.memory.library[..COPY].to_vec();
    vec![
        scan(race, "all_zero, 103,680 bytes", ZERO, vec![0; LIBRARY + LOG + SESSION_MEMORY]),
        scan(race, "is_copy, empty", COPIES, vec![0; COPY]),
        scan(race, "is_copy, 40 held", COPIES, head_end(typical)),
        scan(race, "is_copy, 128 held", COPIES, head_end(full)),
        scan(race, "all_operations, 512", OPERATIONS, operations(512)),
    ]
}
