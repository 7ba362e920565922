//! A system twice: once for the simulator, once for the engine.

use crate::call::Call;
use crate::lent::Lent;
use crate::rows;
use crate::told::Sessions;
use crate::walks::Walks;
use simulator::{Answer, Control, DONE};

#[derive(Clone)]
pub struct Wall {
    pub simulated: Lent,
    pub played: Lent,
    pub control: Control,
    /// If the latest call was a preview: the commit that it was of, and its answer.
    pub previewed: Option<(Call, Answer)>,
    pub told: Sessions,
    pub walks: Walks,
    /// The last of the messages that were written in turn, retired transactions passed over.
    pub written: u32,
}

impl Wall {
    pub fn zeros() -> Wall {
        let (control, told, walks) = (Control::default(), Sessions::default(), Walks::default());
        Wall { simulated: Lent::zeros(), played: Lent::zeros(), control, previewed: None, told, walks, written: 0 }
    }

    pub fn copy_from(&mut self, other: &Wall) {
        self.simulated.copy_from(&other.simulated);
        self.played.copy_from(&other.played);
        self.control = other.control;
        self.previewed.clone_from(&other.previewed);
        self.told.clone_from(&other.told);
        self.walks = other.walks;
        self.written = other.written;
    }

    /// Takes in a call that was played; `number` is its session's before it.
    pub fn follow(&mut self, call: &Call, number: u32, answer: &Answer) {
        self.walks.follow(call, number, rows::session_studio(call, &self.control), answer);
        let next = self.next_message();
        self.control = answer.control;
        self.previewed = call.previewed().map(|commit| (commit, *answer));
        self.told.follow(call, number, answer);
        if matches!((call, answer.kind), (Call::VanWrite { number, .. }, DONE) if *number == next) {
            self.written = next;
        }
    }

    /// The number of the next message to be written in turn.
    pub fn next_message(&self) -> u32 {
        self.written.max(self.control.retired).saturating_add(1)
    }

    /// Gives the simulator the engine's memory, after the latter was changed. What the sessions were told and shown is forgotten, but for
    /// the numbers that memory has.
    pub fn mirror(&mut self) {
        self.simulated.copy_from(&self.played);
        self.previewed = None;
        self.told = Sessions::default();
        self.walks = Walks::loaded(&self.played);
    }

    /// The answer of the preview right before this call, if the call is the commit that it was of.
    pub fn answer_previewed(&self, call: &Call) -> Option<Answer> {
        self.previewed.as_ref().filter(|(commit, _)| commit == call).map(|(_, answer)| *answer)
    }

    /// Lends the call's input and an output of marked bytes.
    pub fn lend(&mut self, call: &Call, mark: u64) {
        let output: Vec<u8> = (0..call.output()).map(|at| marked(at, mark)).collect();
        for lent in [&mut self.simulated, &mut self.played] {
            lent.input.set(call.input());
            lent.output.set(&output);
        }
    }

    /// Whether cart `number` is held at the head end.
    pub fn held(&self, number: usize) -> bool {
        self.played.library.byte(80 * (number - 1)) == 1
    }

    /// Whether a read of session 1 to 16 is waiting.
    pub fn waiting(&self, session: u32) -> bool {
        self.played.sessions.byte(80 * (session as usize - 1)) != 0
    }

    /// The sessions that have nothing waiting and whose studio has not reached their number.
    pub fn behind(&self) -> Vec<u32> {
        let behind = |session: &u32| {
            let number = self.number(*session);
            let studio = self.control.session_studios[*session as usize - 1] as usize;
            !self.waiting(*session) && self.control.applied.get(studio - 1).is_some_and(|applied| *applied < number)
        };
        self.used_sessions().into_iter().filter(behind).collect()
    }

    /// The studios that have not reached the session's number; none for a session outside 1 to 16.
    pub fn studios_behind(&self, session: u32) -> Vec<u32> {
        let (1..=16) = session else { return Vec::new() };
        let behind = |studio: &u32| self.control.applied[*studio as usize - 1] < self.number(session);
        (1..=self.control.studios.min(4)).filter(behind).collect()
    }

    /// The number of session 1 to 16.
    pub fn number(&self, session: u32) -> u32 {
        let unit = 80 * (session as usize - 1);
        rows::session_number(&self.played.sessions.lent()[unit..unit + 80])
    }

    pub fn used_sessions(&self) -> Vec<u32> {
        (1..=16).filter(|session| self.control.session_studios[*session as usize - 1] != 0).collect()
    }
}

/// A byte that is never zero, so that zeros not written are seen.
pub fn marked(at: usize, mark: u64) -> u8 {
    (at as u8).wrapping_mul(31).wrapping_add(mark as u8) | 1
}
