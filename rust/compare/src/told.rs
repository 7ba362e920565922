//! The sessions that the head end has told or shown something, until they are answered by their studio or commit: by a commit refused with
//! 8 that raised the number (02's S-3), or by a forward that it answered (02's S-4).

use crate::call::Call;
use crate::rows;
use simulator::{ANSWERED, Answer, DONE, REFUSED, WAITS};

/// What a session has from the head end, and has not seen at its studio yet.
#[derive(Clone, Copy, Default, PartialEq, Eq, Debug)]
pub enum Told {
    #[default]
    Nothing,
    /// A refusal 8 raised its number; before it was this.
    Refused(u32),
    /// Its first read since the refusal waits.
    RefusedWaits,
    /// A forward was answered by the head end; before it the number was this.
    Forwarded(u32),
    /// Its first read since the forward waits.
    ForwardedWaits,
}

/// What each session from 1 to 16 has; place 0 is for calls without such a session.
#[derive(Clone, Default)]
pub struct Sessions {
    told: [Told; 17],
    /// Whether a forward was refused with 4 because of the read that waits.
    stopped_by_4: [bool; 17],
    /// The place of the latest call's session, if that was a forward that the head end answered.
    latest: Option<usize>,
}

impl Sessions {
    /// Takes in a call; `number` is its session's before it.
    pub fn follow(&mut self, call: &Call, number: u32, answer: &Answer) {
        let place = rows::place(call);
        let forwarded = rows::by_head_end(call, number, answer);
        self.latest = forwarded.then_some(place);
        let told = &mut self.told[place];
        match (call, answer.kind) {
            (Call::Commit { .. }, REFUSED) if answer.value == 8 && number < answer.control.commits => *told = Told::Refused(number),
            (Call::Forward { .. }, ANSWERED) if forwarded => *told = Told::Forwarded(number),
            (Call::Commit { .. }, DONE) | (_, ANSWERED) => *told = Told::Nothing,
            (Call::Read { .. }, WAITS) => *told = told.waiting(),
            _ => {}
        }
        match (call, answer.kind) {
            (Call::Forward { .. }, REFUSED) if answer.value == 4 => self.stopped_by_4[place] = true,
            (Call::Collect { .. }, ANSWERED) => self.stopped_by_4[place] = false,
            _ => {}
        }
    }

    /// What the session of a call has.
    pub fn of(&self, call: &Call) -> Told {
        self.told[rows::place(call)]
    }

    /// Whether a forward of the call's session was refused because of the read that waits.
    pub fn stopped_by_4(&self, call: &Call) -> bool {
        self.stopped_by_4[rows::place(call)]
    }

    /// Whether the latest call was a forward of this call's session, answered by the head end.
    pub fn straight_after(&self, call: &Call) -> bool {
        self.latest == Some(rows::place(call))
    }

    /// The sessions that have not read since then.
    pub fn unread(&self) -> Vec<u32> {
        let unread = |session: &u32| matches!(self.told[*session as usize], Told::Refused(_) | Told::Forwarded(_));
        (1..=16).filter(unread).collect()
    }
}

impl Told {
    /// After a read that waits.
    fn waiting(self) -> Told {
        match self {
            Told::Refused(_) => Told::RefusedWaits,
            Told::Forwarded(_) => Told::ForwardedWaits,
            other => other,
        }
    }
}
