//! A call with its arguments, played by the engine or by the simulator.

use crate::memory::Memory;
use simulator::{Answer, Control, DONE, Outcome, UNIT};

pub enum Call {
    Layout,
    Setup { studios: u32, places: [u8; 16] },
    Commit { session: u32, operations: Vec<u8> },
    Preview { session: u32, operations: Vec<u8> },
    Send { studio: u32 },
    Refresh { studio: u32 },
    Read { session: u32, request: [u8; UNIT] },
    Collect { session: u32 },
    Forward { session: u32, request: [u8; UNIT] },
    VanWrite { number: u32 },
    Move { session: u32, studio: u32 },
    Load,
    Retire,
}

/// Plays a call by one of the two crates that have a function for each, or the layout test by `$layout`.
macro_rules! play {
    ($by:ident, $layout:expr, $call:ident, $memory:ident, $control:ident, $output:ident) => {{
        let Memory { library, log, sessions } = $memory;
        let control = *$control;
        match $call {
            Call::Layout => $layout(library, log, sessions, control),
            Call::Setup { studios, places } => $by::setup(library, log, sessions, *studios, places),
            Call::Commit { session, operations } => $by::commit(library, log, sessions, control, *session, operations),
            Call::Preview { session, operations } => $by::preview(library, log, sessions, control, *session, operations),
            Call::Send { studio } => $by::send(library, log, sessions, control, *studio),
            Call::Refresh { studio } => $by::refresh(library, log, sessions, control, *studio),
            Call::Read { session, request } => $by::read(library, log, sessions, control, *session, request, $output),
            Call::Collect { session } => $by::collect(library, log, sessions, control, *session, $output),
            Call::Forward { session, request } => $by::forward(library, log, sessions, control, *session, request, $output),
            Call::VanWrite { number } => $by::van_write(library, log, sessions, control, *number, $output),
            Call::Move { session, studio } => $by::move_session(library, log, sessions, control, *session, *studio),
            Call::Load => $by::load(library, log, sessions, control),
            Call::Retire => $by::retire(library, log, sessions, control),
        }
    }};
}

pub type Player = fn(&Call, &mut Memory, &Control, &mut [u8]) -> Answer;

/// The call, played by the engine.
pub fn play(call: &Call, memory: &mut Memory, control: &Control, output: &mut [u8]) -> Answer {
    play!(linked, linked::layout, call, memory, control, output)
}

/// The call, played by the simulator.
pub fn simulate(call: &Call, memory: &mut Memory, control: &Control, output: &mut [u8]) -> Answer {
    play!(simulator, simulated_layout, call, memory, control, output)
}

fn simulated_layout(library: &[u8], log: &[u8], sessions: &[u8], control: Control) -> Answer {
    match simulator::of_layout(library, log, sessions, &control) {
        true => Answer { kind: DONE, control, ..Answer::default() },
        false => Outcome::Refused(2).with(control),
    }
}
