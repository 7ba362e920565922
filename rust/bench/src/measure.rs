//! What is entered into the race: calls by engine and simulator, the floor and its parts, setup.

use crate::call::{Call, Player, play, simulate};
use crate::clock::{Entry, Race};
use crate::memory::Memory;
use crate::states::State;
use crate::undo::Undo;
use crate::wall::Wall;
use crate::{agree, floor};
use simulator::{Control, RECORDS, UNIT};
use std::cell::RefCell;
use std::hint::black_box;
use std::rc::Rc;

/// A wall and a place for output, lent to those that are timed on it in turn.
pub struct Lent {
    wall: Wall,
    output: [u8; 2560],
}

pub type Shared = Rc<RefCell<Lent>>;

pub fn share(wall: &Wall) -> Shared {
    Rc::new(RefCell::new(Lent { wall: wall.clone(), output: [0; 2560] }))
}

/// A call in the race, and putting memory back after it, where that is needed.
#[derive(Clone, Copy)]
pub struct Timing {
    pub call: Entry,
    pub back: Option<Entry>,
}

impl Timing {
    /// The call's time, without the time to put memory back.
    pub fn time(self, race: &Race) -> f64 {
        race.best(self.call) - self.back.map_or(0.0, |back| race.best(back))
    }
}

/// A call by engine and simulator.
pub struct Both {
    pub engine: Timing,
    pub simulator: Timing,
}

fn undo_of(call: &Call, shared: &Shared) -> Undo {
    let mut before = shared.borrow().wall.clone();
    let mut after = before.clone();
    simulate(call, &mut after.memory, &before.control, &mut [0; 2560]);
    Undo::between(&before.memory.parts(), &after.memory.parts())
}

fn add_call(race: &mut Race, player: Player, call: &Rc<Call>, undo: &Rc<Undo>, shared: &Shared) -> Entry {
    let (call, undo, shared) = (Rc::clone(call), Rc::clone(undo), Rc::clone(shared));
    race.add(move || {
        let Lent { wall, output } = &mut *shared.borrow_mut();
        black_box(player(black_box(&call), &mut wall.memory, &wall.control, output));
        undo.run(&mut wall.memory.parts());
    })
}

fn add_undo(race: &mut Race, undo: &Rc<Undo>, shared: &Shared) -> Option<Entry> {
    let (undo, shared) = (Rc::clone(undo), Rc::clone(shared));
    undo.is_needed().then(|| race.add(move || black_box(&undo).run(&mut shared.borrow_mut().wall.memory.parts())))
}

/// A call that must be accepted, by engine and simulator.
pub fn both(race: &mut Race, name: &str, call: &Rc<Call>, shared: &Shared) -> Both {
    agree::on_call(name, call, &shared.borrow().wall);
    let undo = Rc::new(undo_of(call, shared));
    let back = add_undo(race, &undo, shared);
    let mut timing = |player| Timing { call: add_call(race, player, call, &undo, shared), back };
    Both { engine: timing(play), simulator: timing(simulate) }
}

/// A call that must be accepted, by the engine alone.
pub fn engine(race: &mut Race, name: &str, call: &Rc<Call>, shared: &Shared) -> Timing {
    agree::on_call(name, call, &shared.borrow().wall);
    let undo = Rc::new(undo_of(call, shared));
    let back = add_undo(race, &undo, shared);
    Timing { call: add_call(race, play, call, &undo, shared), back }
}

/// The engine's layout test, also of memory that is not of the layout.
pub fn layout(race: &mut Race, shared: &Shared) -> Timing {
    let call = add_call(race, play, &Rc::new(Call::Layout), &Rc::default(), shared);
    Timing { call, back: None }
}

/// The floor's layout test, or a part of it.
pub fn floor(race: &mut Race, test: fn(&Memory, &Control) -> bool, shared: &Shared) -> Entry {
    let shared = Rc::clone(shared);
    race.add(move || {
        let Lent { wall, .. } = &*shared.borrow();
        black_box(test(black_box(&wall.memory), &wall.control));
    })
}

pub fn whole_floor(memory: &Memory, control: &Control) -> bool {
    floor::is_layout(&memory.library, &memory.log, &memory.sessions, control)
}

/// The layout test by engine, simulator and floor.
pub struct Layout {
    pub both: Both,
    pub floor: Entry,
}

impl Layout {
    pub fn enter(race: &mut Race, shared: &Shared) -> Layout {
        let both = both(race, "layout", &Rc::new(Call::Layout), shared);
        Layout { both, floor: floor(race, whole_floor, shared) }
    }
}

/// A state's layout test and calls in the race.
pub struct Measured {
    pub layout: Layout,
    pub calls: Vec<Both>,
}

impl Measured {
    pub fn enter(race: &mut Race, state: &State) -> Measured {
        let shared = share(&state.wall);
        let layout = Layout::enter(race, &shared);
        let calls = state.calls.iter().map(|(name, _, call)| both(race, name, call, &shared)).collect();
        Measured { layout, calls }
    }
}

/// Setup, and clearing the same memory by memset and linking the log's records. Nothing is put back.
pub fn setup(race: &mut Race, wall: &Wall) -> (Both, Entry) {
    let shared = share(wall);
    let places = [1, 1, 2, 2, 3, 3, 4, 4, 0, 0, 0, 0, 0, 0, 0, 0];
    let call = Rc::new(Call::Setup { studios: 4, places });
    agree::on_call("setup", &call, wall);
    let nothing = Rc::default();
    let mut timing = |player| Timing { call: add_call(race, player, &call, &nothing, &shared), back: None };
    let both = Both { engine: timing(play), simulator: timing(simulate) };
    let clear = race.add(move || {
        let mut lent = shared.borrow_mut();
        let Memory { library, log, sessions } = black_box(&mut *lent.wall.memory);
        library.fill(0);
        log.fill(0);
        sessions.fill(0);
        for (next, record) in (2u16..).zip(log.as_chunks_mut::<UNIT>().0.iter_mut().take(RECORDS - 1)) {
            record[12..14].copy_from_slice(&next.to_le_bytes());
        }
    });
    (both, clear)
}
