//! The van's two calls (02's S-6): the writer on full memory beside its layout test, the receiver on a full copy beside the form test.

use crate::call::Call;
use crate::clock::Race;
use crate::growth::{self, Point};
use crate::measure::Timing;
use crate::undo::Undo;
use crate::units;
use crate::wall::Wall;
use linked::carts;
use simulator::{CARTS, COPY, DONE, UNIT};
use std::cell::RefCell;
use std::hint::black_box;
use std::rc::Rc;

pub struct Van {
    pub written: [(&'static str, Point); 2],
    pub received: [(&'static str, Point); 3],
}

/// What the van has applied before each message that is timed.
const APPLIED: u16 = 503;

impl Van {
    pub fn enter(race: &mut Race, full: &Wall) -> Van {
        let copy = &full.memory.library[..COPY];
        let title = |cart: usize| units::title(cart % CARTS + 1, 64);
        let retitle = |cart| units::retitle(cart, &title(cart));
        let recut = |cart| units::recut(cart, 7);
        let replace = |i| if i < 4 { units::withdraw(i + 1) } else { units::new(i - 3, &title(i)) };
        Van {
            written: [("512 commits of 1", 1), ("64 commits of 8", 8)].map(|(name, operations)| (name, write(race, name, operations))),
            received: [
                ("8 retitles, 64 letters", std::array::from_fn(|i| retitle(29 * i % CARTS + 1))),
                ("8 re-cuts", std::array::from_fn(|i| recut(29 * i % CARTS + 1))),
                ("4 withdrawn, then 4 new", std::array::from_fn(replace)),
            ]
            .map(|(name, operations)| (name, receive(race, name, copy, &operations))),
        }
    }
}

/// The message of the last transaction, to which the walk is the longest.
fn write(race: &mut Race, name: &str, operations: usize) -> Point {
    let wall = Wall::full(512, operations);
    let number = wall.control.commits;
    growth::point(race, name, number, &wall, Call::VanWrite { number })
}

/// Engine and simulator apply the message, and leave the same copy: what it takes to put it back.
fn applied(name: &str, copy: &[u8], message: &[u8]) -> Undo {
    let (mut before, mut after, mut expected) = (copy.to_vec(), copy.to_vec(), copy.to_vec());
    let by_engine = linked::van_receive(&mut after, APPLIED.into(), message);
    let by_simulator = simulator::van_receive(&mut expected, APPLIED.into(), message);
    assert!(by_engine == by_simulator && after == expected, "{name}: engine and simulator differ");
    assert_eq!((by_engine.kind, by_engine.applied), (DONE, u32::from(APPLIED) + 1), "{name}: not applied");
    Undo::between(&[&mut before], &[&mut after])
}

/// A message of eight operations, each time on the same copy. Form test and receiver are timed on the same bytes.
fn receive(race: &mut Race, name: &str, copy: &[u8], operations: &[[u8; UNIT]; 8]) -> Point {
    let message = units::message(APPLIED + 1, operations);
    let undo = Rc::new(applied(name, copy, &message));
    assert!(undo.is_needed(), "{name}: nothing has changed");
    let shared = Rc::new(RefCell::new(copy.to_vec()));
    let form = {
        let shared = Rc::clone(&shared);
        race.add(move || {
            black_box(carts::is_copy(black_box(&shared.borrow())));
        })
    };
    let back = {
        let (shared, undo) = (Rc::clone(&shared), Rc::clone(&undo));
        race.add(move || black_box(&undo).run(&mut [&mut shared.borrow_mut()]))
    };
    let call = race.add(move || {
        let copy = &mut shared.borrow_mut()[..];
        black_box(linked::van_receive(copy, APPLIED.into(), black_box(&message)));
        undo.run(&mut [copy]);
    });
    Point { at: u32::from(APPLIED) + 1, test: Timing { call: form, back: None }, call: Timing { call, back: Some(back) } }
}
