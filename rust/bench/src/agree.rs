//! Before anything is timed: engine, simulator and floor must agree on what is timed, and on damaged memory.

use crate::call::{Call, play, simulate};
use crate::floor;
use crate::memory::Memory;
use crate::wall::{self, Wall};
use simulator::{Control, DONE, REFUSED, UNIT};

fn of_layout(memory: &mut Memory, control: &Control) -> bool {
    let by_engine = play(&Call::Layout, memory, control, &mut []).kind == DONE;
    let by_simulator = simulate(&Call::Layout, memory, control, &mut []).kind == DONE;
    let by_floor = floor::is_layout(&memory.library, &memory.log, &memory.sessions, control);
    assert_eq!(by_engine, by_simulator, "engine and simulator differ on the layout");
    assert_eq!(by_floor, by_simulator, "floor and simulator differ on the layout");
    by_simulator
}

/// The call is not refused, and ends the same in both: answer, memory, output.
pub fn on_call(name: &str, call: &Call, wall: &Wall) {
    let (mut one, mut other) = (wall.clone(), wall.clone());
    let (mut shown, mut expected) = ([9; 2560], [9; 2560]);
    let by_engine = play(call, &mut one.memory, &wall.control, &mut shown);
    let by_simulator = simulate(call, &mut other.memory, &wall.control, &mut expected);
    assert_eq!(by_engine, by_simulator, "{name}: answers differ");
    assert_ne!(by_engine.kind, REFUSED, "{name}: refused by {}", by_engine.value);
    let same = one.memory.library == other.memory.library
        && one.memory.log == other.memory.log
        && one.memory.sessions == other.memory.sessions
        && shown == expected;
    assert!(same, "{name}: memory or output differ");
    if let Call::Forward { session, .. } = call {
        let studio = wall.control.session_studios[*session as usize - 1] as usize;
        let by_head_end = by_engine.value != wall.control.applied[studio - 1];
        assert_eq!(by_head_end, *session == wall::WAITING_READER, "{name}: the other copy answered");
    }
}

/// The three agree on a wall, and on it with one byte or one word of control damaged, for many of these. Returns how many.
pub fn on_layout(wall: &Wall) -> u32 {
    let mut wall = wall.clone();
    assert!(of_layout(&mut wall.memory, &wall.control));
    let mut tried = 1;
    let control = wall.control;
    for damage in damaged_controls(&control) {
        of_layout(&mut wall.memory, &damage);
        tried += 1;
    }
    let Memory { library, log, sessions } = &*wall.memory;
    let total = library.len() + log.len() + sessions.len();
    let log_end = library.len() + log.len();
    // Every 7th byte of all; every byte of the sessions and of a few records at the log's start; every link.
    let dense = (library.len()..library.len() + 800).chain(log_end..total);
    let links = (library.len()..log_end).step_by(UNIT).flat_map(|record| record + 12..record + 16);
    for at in (0..total).step_by(7).chain(dense).chain(links) {
        for value in [0, 1, 2, 3, 31, 33, 65, 127, 255] {
            let old = std::mem::replace(byte(&mut wall.memory, at), value);
            of_layout_by_two(&mut wall.memory, &control);
            if at % 49 == 0 {
                of_layout(&mut wall.memory, &control);
            }
            *byte(&mut wall.memory, at) = old;
            tried += 1;
        }
    }
    tried
}

/// Engine and floor alone: the simulator is slow.
fn of_layout_by_two(memory: &mut Memory, control: &Control) {
    let by_engine = play(&Call::Layout, memory, control, &mut []).kind == DONE;
    let by_floor = floor::is_layout(&memory.library, &memory.log, &memory.sessions, control);
    assert_eq!(by_engine, by_floor, "engine and floor differ on the layout");
}

fn byte(memory: &mut Memory, at: usize) -> &mut u8 {
    let Memory { library, log, sessions } = memory;
    library.iter_mut().chain(log).chain(sessions).nth(at).expect("a byte of the three memories")
}

fn damaged_controls(control: &Control) -> Vec<Control> {
    let mut all = Vec::new();
    let logged = [control.commits, control.retired, control.used, control.oldest, control.free_first, control.free_last];
    let near = logged.into_iter().flat_map(|value| [value.wrapping_sub(1), value, value + 1, value | 1 << 16]);
    for value in [0, 1, 2, 3, 4, 5, 31, 32, 33, 511, 512, 513, 65_535, 65_536, u32::MAX].into_iter().chain(near) {
        let with = |change: &dyn Fn(&mut Control)| {
            let mut damaged = *control;
            change(&mut damaged);
            damaged
        };
        all.push(with(&|c| c.studios = value));
        all.push(with(&|c| c.used = value));
        all.push(with(&|c| c.commits = value));
        all.push(with(&|c| c.retired = value));
        all.push(with(&|c| c.oldest = value));
        all.push(with(&|c| c.free_first = value));
        all.push(with(&|c| c.free_last = value));
        all.push(with(&|c| (c.commits, c.retired) = (c.commits.wrapping_add(value), c.retired.wrapping_add(value))));
        for i in 0..4 {
            all.push(with(&|c| c.sent[i] = value));
            all.push(with(&|c| c.applied[i] = value));
        }
        for i in 0..16 {
            all.push(with(&|c| c.session_studios[i] = value));
        }
    }
    all
}
