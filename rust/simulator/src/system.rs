//! The whole system as a value, decoded from and encoded to lent memory.

use crate::bytes::all_zero;
use crate::cart::{Copy, decode_copy, encode_copy};
use crate::control::Control;
use crate::log::Log;
use crate::operation::Transaction;
use crate::session::Session;
use crate::sizes::{COMMITS, COPY, SESSIONS, STUDIOS, UNIT, WINDOW};

/// A studio: its copy and its two counts.
#[derive(Clone, PartialEq, Eq, Debug)]
pub struct Studio {
    pub copy: Copy,
    pub sent: u32,
    pub applied: u32,
}

#[derive(Clone, PartialEq, Eq, Debug)]
pub struct System {
    pub head_end: Copy,
    /// Studio i is at i − 1; there are S of them.
    pub studios: Vec<Studio>,
    /// What the retired transactions made.
    pub sixth: Copy,
    pub retired: u32,
    pub log: Log,
    /// Session i is at i − 1; `None` is an unused one.
    pub sessions: Vec<Option<Session>>,
}

impl System {
    /// The system, or `None` when control and memory are not of the layout.
    /// The three memories have their right lengths.
    pub fn decode(library: &[u8], log: &[u8], sessions: &[u8], control: &Control) -> Option<System> {
        let count = usize::try_from(control.studios).ok()?;
        if !(1..=STUDIOS).contains(&count) || control.commits > COMMITS {
            return None;
        }
        let log = Log::decode(log, control)?;
        let sessions = decode_sessions(sessions, control)?;
        let (head_end, rest) = library.split_at(COPY);
        let (copies, sixth) = rest.split_at(STUDIOS * COPY);
        if control.retired == 0 && !all_zero(sixth) {
            return None;
        }
        let (head_end, sixth) = (decode_copy(head_end)?, decode_copy(sixth)?);
        let studios = decode_studios(copies, count, control)?;
        Some(System { head_end, studios, sixth, retired: control.retired, log, sessions })
    }

    /// Writes the system over the three memories and returns its control.
    pub fn encode(&self, library: &mut [u8], log: &mut [u8], sessions: &mut [u8]) -> Control {
        library.fill(0);
        sessions.fill(0);
        let mut control =
            Control { studios: as_u32(self.studios.len()), commits: self.commits(), retired: self.retired, ..Control::default() };
        let (head_end, rest) = library.split_at_mut(COPY);
        let (copies, sixth) = rest.split_at_mut(STUDIOS * COPY);
        encode_copy(&self.head_end, head_end);
        encode_copy(&self.sixth, sixth);
        for (i, studio) in self.studios.iter().enumerate() {
            encode_copy(&studio.copy, &mut copies[COPY * i..COPY * (i + 1)]);
            control.sent[i] = studio.sent;
            control.applied[i] = studio.applied;
        }
        for (i, unit) in sessions.chunks_exact_mut(UNIT).enumerate() {
            if let Some(session) = &self.sessions[i] {
                session.encode(unit);
                control.session_studios[i] = as_u32(session.studio);
            }
        }
        self.log.encode(log, &mut control);
        control
    }

    pub fn commits(&self) -> u32 {
        self.retired + as_u32(self.log.transactions.len())
    }

    /// Transaction n, or `None` where it is retired or not committed.
    pub fn transaction(&self, n: u32) -> Option<&Transaction> {
        let before = n.checked_sub(self.retired)?.checked_sub(1)?;
        let logged = self.log.transactions.get(usize::try_from(before).ok()?)?;
        Some(&logged.operations)
    }
}

pub fn as_u32(count: usize) -> u32 {
    u32::try_from(count).expect("every count here is small")
}

fn decode_sessions(bytes: &[u8], control: &Control) -> Option<Vec<Option<Session>>> {
    let units = bytes.chunks_exact(UNIT);
    let mut sessions = Vec::with_capacity(SESSIONS);
    for (unit, studio) in units.zip(control.session_studios) {
        sessions.push(match studio {
            0 => all_zero(unit).then_some(None)?,
            _ if studio > control.studios => return None,
            _ => Some(Session::decode(unit, usize::try_from(studio).ok()?, control.commits)?),
        });
    }
    Some(sessions)
}

/// The first `count` studios; the ones above must be zero throughout.
fn decode_studios(copies: &[u8], count: usize, control: &Control) -> Option<Vec<Studio>> {
    let mut studios = Vec::with_capacity(count);
    for (i, bytes) in copies.chunks_exact(COPY).enumerate() {
        let (sent, applied) = (control.sent[i], control.applied[i]);
        if i < count {
            let counted = control.retired <= applied && applied <= sent && sent <= control.commits && sent - applied <= WINDOW;
            let copy = counted.then(|| decode_copy(bytes)).flatten()?;
            studios.push(Studio { copy, sent, applied });
        } else if sent != 0 || applied != 0 || !all_zero(bytes) {
            return None;
        }
    }
    Some(studios)
}
