//! The conversions of old files (02's S-10), each way beside the form test of the copy that they are from or to.

use crate::clock::Race;
use crate::growth::Point;
use crate::measure::Timing;
use crate::units;
use linked::carts;
use simulator::{Answer, CARTS, COPY, DONE, OLD_FILE, OLD_TITLE, UNIT};
use std::hint::black_box;
use std::rc::Rc;

pub struct Conversions {
    pub from_old: Rows,
    pub to_old: Rows,
}

pub type Rows = [(&'static str, Point); 3];

/// The walls: how many carts are held, and the letters of their titles.
const WALLS: [(&str, usize, usize); 3] =
    [("full, titles of 32 letters", CARTS, OLD_TITLE), ("full, titles of 8 letters", CARTS, 8), ("empty", 0, 0)];

type Convert = fn(&[u8], &mut [u8]) -> Answer;

/// One way, by engine and simulator, and the bytes of its output.
struct Way {
    engine: Convert,
    simulator: Convert,
    written: usize,
}

const FROM_OLD: Way = Way { engine: linked::from_old, simulator: simulator::from_old, written: COPY };
const TO_OLD: Way = Way { engine: linked::to_old, simulator: simulator::to_old, written: OLD_FILE };

impl Conversions {
    pub fn enter(race: &mut Race) -> Conversions {
        let walls = WALLS.map(|(name, held, letters)| (name, held, copy(held, letters)));
        let mut from_old = |name, held, copy: &Rc<[u8]>| point(race, name, held, copy, &FROM_OLD, &converted(name, &TO_OLD, copy));
        let from_old = walls.each_ref().map(|(name, held, copy)| (*name, from_old(name, *held, copy)));
        let mut to_old = |name, held, copy: &Rc<[u8]>| point(race, name, held, copy, &TO_OLD, copy);
        let to_old = walls.each_ref().map(|(name, held, copy)| (*name, to_old(name, *held, copy)));
        Conversions { from_old, to_old }
    }
}

/// The first so many carts are held, with titles of so many letters.
fn copy(held: usize, letters: usize) -> Rc<[u8]> {
    let mut copy = vec![0; COPY];
    for (cart, unit) in (1..=held).zip(copy.chunks_exact_mut(UNIT)) {
        unit.copy_from_slice(&units::new(cart, &units::title(cart, letters)));
    }
    Rc::from(copy)
}

/// What engine and simulator both write, over bytes that are not zero; it must be accepted.
fn converted(name: &str, way: &Way, input: &[u8]) -> Rc<[u8]> {
    let (mut written, mut expected) = (vec![255; way.written], vec![255; way.written]);
    let by_engine = (way.engine)(input, &mut written);
    let by_simulator = (way.simulator)(input, &mut expected);
    assert!(by_engine == by_simulator && written == expected, "{name}: engine and simulator differ");
    assert_eq!((by_engine.kind, by_engine.value), (DONE, way.written as u32), "{name}: not converted");
    Rc::from(written)
}

/// One way, each time of the same input and to the same output. The form test is that of the copy.
fn point(race: &mut Race, name: &str, held: usize, copy: &Rc<[u8]>, way: &Way, input: &Rc<[u8]>) -> Point {
    let mut output = converted(name, way, input).to_vec();
    let (copy, input, engine) = (Rc::clone(copy), Rc::clone(input), way.engine);
    let form = race.add(move || {
        black_box(carts::is_copy(black_box(&copy)));
    });
    let call = race.add(move || {
        black_box(engine(black_box(&input), black_box(&mut output)));
    });
    let timing = |call| Timing { call, back: None };
    Point { at: held as u32, test: timing(form), call: timing(call) }
}
