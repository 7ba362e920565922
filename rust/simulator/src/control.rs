//! The values that cross the interface: control and the answers.

use crate::sizes::{SESSIONS, STUDIOS};

/// Control, passed and handed back as a value.
#[repr(C)]
#[derive(Clone, Copy, PartialEq, Eq, Debug, Default)]
pub struct Control {
    /// S, 1 to 4.
    pub studios: u32,
    /// The studio of each session, 0 for an unused one.
    pub session_studios: [u32; SESSIONS],
    /// Records in the log's chain.
    pub used: u32,
    /// Commits, retired ones included.
    pub commits: u32,
    /// Sent of each studio.
    pub sent: [u32; STUDIOS],
    /// Applied of each studio.
    pub applied: [u32; STUDIOS],
    /// Transactions retired.
    pub retired: u32,
    /// The first record of the oldest transaction in the log, 0 for none.
    pub oldest: u32,
    /// The first record of the free chain, 0 for none.
    pub free_first: u32,
    /// The last record of the free chain, 0 for none.
    pub free_last: u32,
}

/// The kind of a refusal.
pub const REFUSED: u32 = 0;
/// The kind of an accepted setup, commit, preview, send, refresh, move, load, retire or
/// conversion, and of a message written or applied.
pub const DONE: u32 = 1;
/// The kind of an answered read, collect or forward.
pub const ANSWERED: u32 = 2;
/// The kind of a read that waits.
pub const WAITS: u32 = 3;
/// The kind of a message that the van has applied already.
pub const HELD: u32 = 4;

/// What a call hands back. Words without a meaning are zero.
#[repr(C)]
#[derive(Clone, Copy, PartialEq, Eq, Debug, Default)]
pub struct Answer {
    /// Refused, done, answered or waits.
    pub kind: u32,
    /// The refusal's number, the count (a load's is commits, a retire's is retired), the
    /// studio moved to, the message's length, the bytes that a conversion wrote, the state,
    /// or the session's number.
    pub value: u32,
    /// How many were found.
    pub found: u32,
    /// Control for the next call; of a conversion, which is passed none, all zero.
    pub control: Control,
}

/// What the van's receiver hands back.
#[repr(C)]
#[derive(Clone, Copy, PartialEq, Eq, Debug, Default)]
pub struct VanAnswer {
    /// Refused, done or held.
    pub kind: u32,
    /// The refusal's number, else the message's.
    pub value: u32,
    /// Applied for the next call.
    pub applied: u32,
}

/// How a call ended, before it is put into the words of an answer.
#[derive(Clone, Copy, PartialEq, Eq, Debug)]
pub enum Outcome {
    /// The row's number.
    Refused(u32),
    /// The count, studio, length or bytes written that the call returns, 0 for setup.
    Done(u32),
    /// A read, collect or forward is answered.
    Answered {
        /// Applied of the session's studio, or commits where the head end's copy answered.
        state: u32,
        /// How many were found.
        found: u32,
    },
    /// The session's number.
    Waits(u32),
}

impl Outcome {
    /// The words of the answer.
    pub fn with(self, control: Control) -> Answer {
        let (kind, value, found) = match self {
            Outcome::Refused(number) => (REFUSED, number, 0),
            Outcome::Done(value) => (DONE, value, 0),
            Outcome::Answered { state, found } => (ANSWERED, state, found),
            Outcome::Waits(number) => (WAITS, number, 0),
        };
        Answer { kind, value, found, control }
    }
}
