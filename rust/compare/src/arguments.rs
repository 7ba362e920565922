//! Calls with chosen arguments: mostly fitting the wall, sometimes anything.

use crate::call::Call;
use crate::make::{Maker, spoil, spoil_request};
use crate::message;
use crate::random::Random;
use crate::rows;
use crate::wall::Wall;
use simulator::Control;

/// The kinds of call that have a weight, by their places among the weights.
pub const CALLS: usize = 11;
pub const COMMIT: usize = 0;
const SEND: usize = 1;
const REFRESH: usize = 2;
pub const READ: usize = 3;
const COLLECT: usize = 4;
pub const PREVIEW: usize = 5;
pub const FORWARD: usize = 6;
const VAN_WRITE: usize = 7;
const MOVE: usize = 8;
const LOAD: usize = 9;
pub const RETIRE: usize = 10;

/// The weights by which one kind alone is chosen.
pub fn only(kind: usize) -> [usize; CALLS] {
    let mut weights = [0; CALLS];
    weights[kind] = 1;
    weights
}

/// How a list chooses its arguments.
#[derive(Clone, Copy)]
pub struct Taste {
    /// Weights of commit, send, refresh, read, collect, preview, forward, van_write, move, load and retire.
    pub weights: [usize; CALLS],
    /// Operations of a commit or a preview, from and to.
    pub sizes: (usize, usize),
    /// Percent of arguments that are meant to fit.
    pub fitting: usize,
    /// Percent of commits and previews in which one operation meets its cart in the wrong state.
    pub misfits: usize,
}

/// A call; after a preview often the commit that it was of.
pub fn call(random: &mut Random, maker: &Maker, taste: &Taste, wall: &Wall) -> Call {
    if let Some((commit, _)) = &wall.previewed
        && random.percent(60)
    {
        return commit.clone();
    }
    let mut kind = random.weighted(&taste.weights);
    if matches!(kind, COMMIT | READ | PREVIEW | FORWARD | MOVE) && all_waiting(wall) && random.percent(90) {
        kind = *random.pick(&[SEND, REFRESH, REFRESH, COLLECT]);
    }
    match kind {
        COMMIT => {
            let (session, operations) = edit(random, maker, taste, wall);
            Call::Commit { session, operations }
        }
        PREVIEW => {
            let (session, operations) = edit(random, maker, taste, wall);
            Call::Preview { session, operations }
        }
        SEND => Call::Send { studio: studio(random, taste, wall) },
        REFRESH => Call::Refresh { studio: studio(random, taste, wall) },
        READ => read(random, maker, taste, wall),
        FORWARD => forward(random, maker, taste, wall),
        VAN_WRITE => van_write(random, taste, wall),
        MOVE => move_session(random, taste, wall),
        LOAD => Call::Load,
        RETIRE => Call::Retire,
        _ => collect(random, taste, wall),
    }
}

/// Whether every used session has a read waiting, so that only sends,
/// refreshes and collects lead on.
fn all_waiting(wall: &Wall) -> bool {
    wall.used_sessions().into_iter().all(|session| wall.waiting(session))
}

/// The arguments of a commit or a preview: a session and operations.
fn edit(random: &mut Random, maker: &Maker, taste: &Taste, wall: &Wall) -> (u32, Vec<u8>) {
    let session = session(random, taste, wall, false);
    let mut held = [false; 129];
    for (cart, state) in held.iter_mut().enumerate().skip(1) {
        *state = wall.held(cart);
    }
    let size = random.within(taste.sizes.0, taste.sizes.1);
    let mut operations: Vec<u8> = (0..size).flat_map(|_| maker.fitting(random, &mut held)).collect();
    if random.percent(taste.misfits) {
        let unit = 80 * random.below(size);
        maker.misfit(random, &mut operations[unit..unit + 80]);
    }
    if !random.percent(taste.fitting) {
        maker.space(random, &mut operations, wall.played.library.lent());
    }
    if !random.percent(taste.fitting) {
        unsettle(random, maker, &mut operations);
    }
    (session, operations)
}

/// Makes operations that are of a wrong size, out of form, or in a wrong state.
fn unsettle(random: &mut Random, maker: &Maker, operations: &mut Vec<u8>) {
    let unit = 80 * random.below(operations.len() / 80);
    match random.below(10) {
        0..=2 => operations[unit..unit + 80].copy_from_slice(&maker.any(random)),
        3..=6 => spoil(random, &mut operations[unit..unit + 80]),
        7 => {
            let size = *random.pick(&[0, 1, 79, 81, 160, 639, 640, 641, 720, 800]);
            while operations.len() < size {
                operations.extend(maker.any(random));
            }
            operations.truncate(size);
        }
        8 => {
            spoil(random, &mut operations[unit..unit + 80]);
            match random.percent(50) {
                true => operations.push(0),
                false => operations.resize(720, 0),
            }
        }
        _ => {
            let again = operations[..80].to_vec();
            operations.extend(again);
        }
    }
}

/// A read; often by a session that has not read since the head end told or showed it something, or since it moved.
fn read(random: &mut Random, maker: &Maker, taste: &Taste, wall: &Wall) -> Call {
    let session = one_of(random, taste, wall, &[wall.told.unread(), wall.walks.unread()].concat());
    let (request, output) = request(random, maker, taste);
    Call::Read { session, request, output }
}

/// A forward; often by a session whose studio is behind, so that the head end answers.
fn forward(random: &mut Random, maker: &Maker, taste: &Taste, wall: &Wall) -> Call {
    let session = one_of(random, taste, wall, &wall.behind());
    let (request, output) = request(random, maker, taste);
    Call::Forward { session, request, output }
}

/// A move; often to a studio that is behind the session's number, now and then of a session that waits.
fn move_session(random: &mut Random, taste: &Taste, wall: &Wall) -> Call {
    let waiting = random.percent(12);
    let session = session(random, taste, wall, waiting);
    let behind = wall.studios_behind(session);
    let studio = match behind.is_empty() || random.percent(50) {
        true => studio(random, taste, wall),
        false => *random.pick(&behind),
    };
    Call::Move { session, studio }
}

/// One of these sessions, if there are any, as often as one that has nothing waiting.
fn one_of(random: &mut Random, taste: &Taste, wall: &Wall, sessions: &[u32]) -> u32 {
    match sessions.is_empty() || random.percent(50) {
        true => session(random, taste, wall, false),
        false => *random.pick(sessions),
    }
}

/// A request, and how long the output for it is.
fn request(random: &mut Random, maker: &Maker, taste: &Taste) -> (Vec<u8>, usize) {
    let mut request = maker.request(random).to_vec();
    let asked = rows::output_asked(&request);
    if !random.percent(taste.fitting) {
        spoil_request(random, &mut request);
    }
    let output = output_near(random, taste, asked);
    (request, output)
}

/// A collect; now and then of a session that has nothing waiting.
fn collect(random: &mut Random, taste: &Taste, wall: &Wall) -> Call {
    let waiting = !random.percent(5);
    let session = session(random, taste, wall, waiting);
    let asked = match session {
        1..=16 => {
            let start = 80 * (session as usize - 1);
            rows::output_asked(&[wall.played.sessions.byte(start), wall.played.sessions.byte(start + 1)])
        }
        _ => 80,
    };
    Call::Collect { session, output: output_near(random, taste, asked) }
}

fn van_write(random: &mut Random, taste: &Taste, wall: &Wall) -> Call {
    let number = transaction(random, taste, wall);
    let asked = message::output_asked(&wall.control, &wall.played, number);
    Call::VanWrite { number, output: output_near(random, taste, asked) }
}

/// The number of a transaction: often the first in the log of which no message was written, now and then one that is retired.
fn transaction(random: &mut Random, taste: &Taste, wall: &Wall) -> u32 {
    let Control { retired, commits, .. } = wall.control;
    let any = random.within((retired + 1).min(commits) as usize, commits as usize) as u32;
    if random.percent(taste.fitting) {
        let next = if wall.next_message() <= commits { wall.next_message() } else { any };
        return *random.pick(&[next, next, next, next, retired + 1, commits, any, 1]);
    }
    let (word, gone) = (random.word(), random.within(0, retired as usize) as u32);
    *random.pick(&[0, 1, retired, gone, commits, commits + 1, commits + 1, 65_536 + any, 65_536 + commits, u32::MAX, word])
}

fn output_near(random: &mut Random, taste: &Taste, asked: usize) -> usize {
    if random.percent(taste.fitting) {
        return *random.pick(&[asked, asked, asked + 1, asked + 80, 2_560]);
    }
    *random.pick(&[asked - 1, asked - 1, 0, 1, 79, 80, asked, 2_559, 2_560, 4_000])
}

/// A session: fitting ones are used, and wait or do not as asked if any does.
fn session(random: &mut Random, taste: &Taste, wall: &Wall, waiting: bool) -> u32 {
    let used = wall.used_sessions();
    if !random.percent(taste.fitting) {
        let (any, unused) = (random.word(), (1..=16).find(|session| !used.contains(session)).unwrap_or(0));
        return *random.pick(&[0, 1, 2, 15, 16, 17, 18, 257, 65_537, u32::MAX, any, unused, unused]);
    }
    let suited: Vec<u32> = used.iter().copied().filter(|session| wall.waiting(*session) == waiting).collect();
    match (suited.is_empty(), used.is_empty()) {
        (false, _) => *random.pick(&suited),
        (true, false) => *random.pick(&used),
        (true, true) => random.within(1, 16) as u32,
    }
}

fn studio(random: &mut Random, taste: &Taste, wall: &Wall) -> u32 {
    if !random.percent(taste.fitting) {
        let (any, next) = (random.word(), wall.control.studios.wrapping_add(1));
        return *random.pick(&[0, 1, 2, 3, 4, 5, next, next, 257, 65_537, u32::MAX, any]);
    }
    random.within(1, wall.control.studios.clamp(1, 4) as usize) as u32
}

/// A setup; S and studio bytes right or not.
pub fn setup(random: &mut Random, fitting: usize) -> Call {
    let mut studios = random.within(1, 4) as u32;
    let mut session_studios: Vec<u8> = (0..16).map(|_| random.within(0, studios as usize) as u8).collect();
    if !random.percent(fitting) {
        match random.below(4) {
            0 => studios = *random.pick(&[0, 5, 257, 65_540, u32::MAX]),
            1 => session_studios.resize(*random.pick(&[0, 1, 15, 17, 32]), 0),
            2 => session_studios[random.below(16)] = studios as u8 + 1,
            _ => session_studios[random.below(16)] = random.nonzero_byte(),
        }
    }
    Call::Setup { studios, session_studios }
}
