//! Sweeps: every byte of one unit, every control word, every byte of an
//! input, and every memory's length, each with a row of values.

use crate::arguments::{self, CALLS, FORWARD, PREVIEW, READ, Taste};
use crate::asides::{self, WORDS};
use crate::call::Call;
use crate::direct;
use crate::keys::DONE;
use crate::make::Maker;
use crate::places;
use crate::player::{Mismatch, Player};
use crate::random::Random;
use crate::wall::Wall;
use simulator::UNIT;

const EVEN: Taste = Taste { weights: [1; CALLS], sizes: (1, 8), fitting: 92, misfits: 5 };

const BYTES: [u8; 15] = [0, 1, 2, 3, 4, 5, 31, 32, 33, 64, 65, 126, 127, 128, 255];

/// The values that a byte is given in turn.
pub fn values(old: u8) -> impl Iterator<Item = u8> {
    let near = [old.wrapping_add(1), old.wrapping_sub(1), old ^ 128];
    BYTES.into_iter().chain(near).filter(move |value| *value != old)
}

/// Every byte of one unit of memory; `turn` says of which kind.
pub fn memory(player: &mut Player<'_>, seed: u64, turn: usize) -> Result<(), Mismatch> {
    let mut random = Random::new(seed);
    let maker = Maker::new(&mut random, 10);
    let (place, name) = places::ALL[turn % places::ALL.len()];
    let (mut wall, unit) = loop {
        let mut wall = direct::wall(&mut random, &maker);
        let units = places::find(place, &mut wall.played, &wall.control);
        if !units.is_empty() {
            break (wall, *random.pick(&units));
        }
    };
    for byte in 0..UNIT {
        let at = UNIT * unit + byte;
        let old = places::memory(place, &mut wall.played).byte(at);
        for value in values(old) {
            let call = arguments::call(&mut random, &maker, &EVEN, &wall);
            player.play_aside(&wall, &call, |wall| {
                places::memory(place, &mut wall.played).lent_mut()[at] = value;
            })?;
        }
    }
    player.coverage.count((name, 0, DONE));
    Ok(())
}

/// Every word of the control.
pub fn control(player: &mut Player<'_>, seed: u64) -> Result<(), Mismatch> {
    let mut random = Random::new(seed);
    let maker = Maker::new(&mut random, 10);
    let wall = direct::wall(&mut random, &maker);
    for at in 0..WORDS {
        let old = *asides::word(&mut wall.control.clone(), at);
        let near = [old.wrapping_add(1), old.wrapping_sub(1), old + 256, old + 65_536];
        let ends = [0, 1, 2, 3, 4, 5, 31, 32, 33, 511, 512, 513, 65_534, 65_535, 65_536, 1 << 31, u32::MAX];
        for value in near.into_iter().chain(ends) {
            let call = arguments::call(&mut random, &maker, &EVEN, &wall);
            let change = |wall: &mut Wall| *asides::word(&mut wall.control, at) = value;
            player.play_aside(&wall, &call, change)?;
        }
    }
    Ok(())
}

/// The inputs that are swept: four kinds of operation, two of request, by read and by forward.
pub const INPUTS: [&str; 8] = [
    "sweep of a new",
    "sweep of a retitle",
    "sweep of a re-cut",
    "sweep of a withdraw",
    "sweep of a request by numbers",
    "sweep of a request by title",
    "sweep of a forward's request by numbers",
    "sweep of a forward's request by title",
];

/// Every byte of an operation or of a request; `turn` says of which kind. Operations are previewed, and then committed.
pub fn input(player: &mut Player<'_>, seed: u64, turn: usize) -> Result<(), Mismatch> {
    let mut random = Random::new(seed);
    let maker = Maker::new(&mut random, 10);
    let kind = turn % INPUTS.len();
    let (wall, call, unit) = loop {
        let wall = direct::wall(&mut random, &maker);
        let free = wall.used_sessions().into_iter().any(|session| !wall.waiting(session));
        if free && wall.control.used < 500 {
            let call = input_call(&mut random, &maker, &wall, kind);
            if let Some(unit) = unit_of_kind(&call, kind) {
                break (wall, call, unit);
            }
        }
    };
    for at in UNIT * unit..UNIT * (unit + 1) {
        for value in values(call.input()[at]) {
            let changed = with_input_byte(&call, at, value);
            player.play_aside(&wall, &changed, |_| ())?;
        }
    }
    player.coverage.count((INPUTS[kind], 0, DONE));
    Ok(())
}

fn input_call(random: &mut Random, maker: &Maker, wall: &Wall, kind: usize) -> Call {
    let call = match kind {
        0..=3 => PREVIEW,
        4..=5 => READ,
        _ => FORWARD,
    };
    let taste = Taste { weights: arguments::only(call), sizes: (1, 3), fitting: 100, misfits: 0 };
    arguments::call(random, maker, &taste, wall)
}

/// The unit of the call's input that is of the kind asked for.
fn unit_of_kind(call: &Call, kind: usize) -> Option<usize> {
    let wanted = if kind < 4 { kind + 1 } else { kind % 2 + 1 };
    call.input().chunks_exact(UNIT).position(|unit| usize::from(unit[0]) == wanted)
}

fn with_input_byte(call: &Call, at: usize, value: u8) -> Call {
    let mut call = call.clone();
    match &mut call {
        Call::Preview { operations: input, .. } | Call::Read { request: input, .. } | Call::Forward { request: input, .. } => {
            input[at] = value;
        }
        _ => unreachable!("only previews, reads and forwards are swept"),
    }
    call
}

/// Every memory at every telling length, under every call.
pub fn lengths(player: &mut Player<'_>, seed: u64) -> Result<(), Mismatch> {
    let mut random = Random::new(seed);
    let maker = Maker::new(&mut random, 10);
    let wall = direct::wall(&mut random, &maker);
    for kind in 0..=CALLS {
        for memory in 0..3 {
            for length in 0..9 {
                let call = call_of_kind(&mut random, &maker, &wall, kind);
                player.play_aside(&wall, &call, |wall| set_length(wall, memory, length))?;
            }
        }
    }
    Ok(())
}

fn call_of_kind(random: &mut Random, maker: &Maker, wall: &Wall, kind: usize) -> Call {
    if kind == CALLS {
        return arguments::setup(random, 80);
    }
    let taste = Taste { weights: arguments::only(kind), fitting: 60, ..EVEN };
    arguments::call(random, maker, &taste, wall)
}

fn set_length(wall: &mut Wall, memory: usize, length: usize) {
    let lent = &mut wall.played;
    let part = match memory {
        0 => &mut lent.library,
        1 => &mut lent.log,
        _ => &mut lent.sessions,
    };
    let right = part.len();
    // Five sixths of the library are its length before 02's S-9.
    let lengths = [0, 1, 80, right / 6 * 5, right - 80, right - 1, right + 1, right + 80, 2 * right];
    asides::resize(part, lengths[length]);
}
