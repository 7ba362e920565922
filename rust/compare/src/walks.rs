//! What each session was shown, and where it went since (02's S-7, "So that nobody walks back in time"): of two reads answered to one
//! session the later shows no lower state. Over a restart (02's S-8) that is the session's number, as it was loaded: none shows a lower
//! state.

use crate::call::Call;
use crate::lent::Lent;
use crate::rows;
use simulator::{ANSWERED, Answer, DONE, REFUSED, WAITS};

/// The call by which a studio's answer raised a session's number.
#[derive(Clone, Copy, PartialEq, Eq, Debug)]
pub enum By {
    Read,
    Collect,
    Forward,
}

/// One session.
#[derive(Clone, Copy, Default, PartialEq, Eq, Debug)]
pub struct Walk {
    /// Its number when memory was loaded, or made: what it was shown before, or more.
    pub loaded: u32,
    /// The state that its latest answer since then showed.
    pub shown: Option<u32>,
    /// Where answers of studios have raised its number since it last committed or heard of the head end: the latest call that did, and
    /// the number before the first.
    pub raised: Option<(By, u32)>,
    /// Whether it went to another studio since its latest answer.
    pub moved: bool,
    /// Whether its first read since then waits.
    pub waits: bool,
}

impl Walk {
    /// Whether an answer with this state leads back in time.
    pub fn leads_back(&self, state: u32) -> bool {
        state < self.loaded || self.shown.is_some_and(|shown| state < shown)
    }

    /// After a move, at a studio that has applied so many: the last call that raised the number, if the studio has reached what the number
    /// was before answers raised it.
    pub fn held_by(&self, applied: u32) -> Option<By> {
        self.raised.filter(|(_, number)| self.moved && *number <= applied).map(|(by, _)| by)
    }

    /// After an answer by the head end, if `by` is none, or by the studio; `number` is the session's before it.
    fn answered(self, by: Option<By>, number: u32, state: u32) -> Walk {
        let first = self.raised.map_or(number, |(_, first)| first);
        let raised = match by {
            None => None,
            Some(by) if number < state => Some((by, first)),
            Some(_) => self.raised,
        };
        Walk { shown: Some(state), raised, moved: false, waits: false, ..self }
    }
}

/// Every session from 1 to 16; place 0 is for calls without such a session.
#[derive(Clone, Copy, Default)]
pub struct Walks([Walk; 17]);

impl Walks {
    /// The sessions of this memory, of any length.
    pub fn loaded(lent: &Lent) -> Walks {
        let mut walks = Walks::default();
        for (session, walk) in (1..).zip(&mut walks.0[1..]) {
            walk.loaded = rows::session_number(&rows::stored(&Call::Collect { session, output: 0 }, lent));
        }
        walks
    }

    /// Takes in a call; `number` is its session's before it, and `studio` its session's studio.
    pub fn follow(&mut self, call: &Call, number: u32, studio: u32, answer: &Answer) {
        let walk = &mut self.0[rows::place(call)];
        let commits = answer.control.commits;
        match (call, answer.kind) {
            (Call::Setup { .. }, DONE) => *self = Walks::default(),
            (Call::Commit { .. }, DONE) => walk.raised = None,
            (Call::Commit { .. }, REFUSED) if answer.value == 8 && number < commits => walk.raised = None,
            (Call::Move { studio: other, .. }, DONE) => walk.moved |= *other != studio,
            (Call::Read { .. }, WAITS) => walk.waits = walk.moved,
            (_, ANSWERED) => *walk = walk.answered(by(call, number, answer), number, answer.value),
            _ => {}
        }
    }

    /// The session of a call.
    pub fn of(&self, call: &Call) -> Walk {
        self.0[rows::place(call)]
    }

    /// The sessions that have moved and not read since.
    pub fn unread(&self) -> Vec<u32> {
        let unread = |session: &u32| {
            let walk = self.0[*session as usize];
            walk.moved && !walk.waits
        };
        (1..=16).filter(unread).collect()
    }
}

/// The call of an answer, where a studio gave it.
fn by(call: &Call, number: u32, answer: &Answer) -> Option<By> {
    match call {
        Call::Read { .. } => Some(By::Read),
        Call::Collect { .. } => Some(By::Collect),
        _ => (!rows::by_head_end(call, number, answer)).then_some(By::Forward),
    }
}

#[cfg(test)]
mod tests {
    use super::*;
    use simulator::Control;

    const READ: Call = Call::Read { session: 2, request: Vec::new(), output: 80 };
    const COLLECT: Call = Call::Collect { session: 2, output: 80 };
    const FORWARD: Call = Call::Forward { session: 2, request: Vec::new(), output: 80 };
    const MOVE: Call = Call::Move { session: 2, studio: 2 };

    /// Plays what these calls of session 2 answered; it is at studio 1, which has applied 6 of 9. With each the session's number before.
    fn walked(calls: &[(&Call, u32, u32, u32)]) -> Walk {
        let mut walks = Walks::default();
        for (call, number, kind, value) in calls {
            let control = Control { session_studios: [1; 16], commits: 9, applied: [6; 4], ..Control::default() };
            walks.follow(call, *number, 1, &Answer { kind: *kind, value: *value, found: 0, control });
        }
        walks.of(&READ)
    }

    #[test]
    fn a_lower_state_leads_back() {
        let walk = walked(&[(&READ, 0, ANSWERED, 3), (&MOVE, 3, DONE, 2)]);
        assert!(walk.leads_back(2) && !walk.leads_back(3) && !walk.leads_back(4));
        assert!(!walked(&[(&MOVE, 0, DONE, 2)]).leads_back(0), "nothing was shown yet");
    }

    #[test]
    fn a_state_below_the_loaded_number_leads_back() {
        let mut lent = Lent::zeros();
        lent.sessions.lent_mut()[82..84].copy_from_slice(&[4, 1]);
        let mut walks = Walks::loaded(&lent);
        assert!(walks.of(&READ).leads_back(259) && !walks.of(&READ).leads_back(260));
        assert!(!walks.of(&Call::Collect { session: 1, output: 80 }).leads_back(0), "another session");
        let control = Control { session_studios: [1; 16], commits: 300, applied: [270; 4], ..Control::default() };
        walks.follow(&READ, 260, 1, &Answer { kind: ANSWERED, value: 270, found: 0, control });
        assert!(walks.of(&READ).leads_back(269) && !walks.of(&READ).leads_back(270));
        walks.follow(&Call::Setup { studios: 1, session_studios: Vec::new() }, 0, 0, &Answer { kind: DONE, value: 0, found: 0, control });
        assert!(!walks.of(&READ).leads_back(0), "a fresh system");
    }

    #[test]
    fn what_answers_have_raised_makes_a_session_wait_after_a_move() {
        let raised = [(&READ, 1, ANSWERED, 3), (&COLLECT, 3, ANSWERED, 5), (&READ, 5, ANSWERED, 5), (&MOVE, 5, DONE, 2)];
        let walk = walked(&raised);
        assert_eq!(walk, Walk { loaded: 0, shown: Some(5), raised: Some((By::Collect, 1)), moved: true, waits: false });
        assert_eq!((walk.held_by(0), walk.held_by(1), walk.held_by(4)), (None, Some(By::Collect), Some(By::Collect)));
        assert_eq!(walked(&raised[..3]).held_by(1), None, "it has not moved");
        assert_eq!(walked(&[(&FORWARD, 6, ANSWERED, 6), (&MOVE, 6, DONE, 2)]).held_by(1), None, "nothing was raised");
    }

    #[test]
    fn the_head_end_and_commits_raise_the_number_too() {
        let by_head_end = (&FORWARD, 7, ANSWERED, 9);
        assert_eq!(walked(&[(&READ, 1, ANSWERED, 3), by_head_end]), Walk { shown: Some(9), ..Walk::default() });
        let commit = Call::Commit { session: 2, operations: Vec::new() };
        assert_eq!(walked(&[(&READ, 1, ANSWERED, 3), (&commit, 3, DONE, 9)]), Walk { shown: Some(3), ..Walk::default() });
        let taken = walked(&[(&READ, 1, ANSWERED, 3), (&commit, 3, REFUSED, 8)]);
        assert_eq!(taken, Walk { shown: Some(3), ..Walk::default() });
    }

    #[test]
    fn a_move_to_the_present_studio_is_none() {
        let here = Call::Move { session: 2, studio: 1 };
        assert!(!walked(&[(&here, 0, DONE, 1)]).moved);
        assert!(walked(&[(&MOVE, 0, DONE, 2), (&here, 0, DONE, 1)]).moved, "it was away");
    }
}
