//! 02's S-7, "In a list without moves every answer is the same as it was": a list's calls without its moves, played from a fresh system
//! or from loaded memory (02's S-8), and beside it by the rule of before, 01's "A read does not change the session's number".

use crate::call::Call;
use crate::differ::answer_text;
use crate::engine::Engine;
use crate::left;
use crate::lent::Lent;
use crate::rows;
use crate::wall::Wall;
use simulator::{ANSWERED, Answer, Control};

/// Memory and control that a list begins with.
#[derive(Clone)]
pub struct System {
    lent: Lent,
    control: Control,
}

impl System {
    /// For a list that begins with an accepted setup.
    pub fn zeros() -> System {
        System { lent: Lent::zeros(), control: Control::default() }
    }

    /// The engine's, as they are.
    pub fn of(wall: &Wall) -> System {
        System { lent: wall.played.clone(), control: wall.control }
    }

    fn play(&mut self, engine: &mut dyn Engine, call: &Call) -> Answer {
        self.lent.input.set(call.input());
        self.lent.output.set(&vec![9; call.output()]);
        let answer = engine.play(call, self.control, &mut self.lent);
        self.control = answer.control;
        answer
    }

    /// The same by the rule of before: the number is put back after an answer of a studio.
    fn play_before(&mut self, engine: &mut dyn Engine, call: &Call) -> Answer {
        let number = rows::session_number(&rows::stored(call, &self.lent));
        let answer = self.play(engine, call);
        if let (Some(session), ANSWERED, false) = (rows::session_of(call), answer.kind, rows::by_head_end(call, number, &answer)) {
            left::set_number(&mut self.lent, session, number);
        }
        answer
    }
}

/// How many calls were played, and whether a session's number was another at the end; or the first call that is answered otherwise, and
/// in what.
pub fn check(engine: &mut dyn Engine, start: &System, calls: &[Call]) -> Result<(u64, bool), (Call, String)> {
    let (mut now, mut before) = (start.clone(), start.clone());
    let mut played = 0;
    for call in calls.iter().filter(|call| !matches!(call, Call::Move { .. })) {
        played += 1;
        let (answer, old) = (now.play(engine, call), before.play_before(engine, call));
        if answer != old {
            let words = format!("without moves {}, by the rule before S-7 {}", answer_text(&answer), answer_text(&old));
            return Err((call.clone(), words));
        }
        if now.lent.output.lent() != before.lent.output.lent() {
            return Err((call.clone(), "without moves other carts than by the rule before S-7".to_string()));
        }
    }
    Ok((played, now.lent.sessions.lent() != before.lent.sessions.lent()))
}

#[cfg(test)]
mod tests {
    use super::*;
    use crate::engine::Simulated;

    fn request() -> Vec<u8> {
        let mut request = vec![0; 80];
        (request[0], request[1], request[16]) = (1, 1, 1);
        request
    }

    fn new_cart_1() -> Vec<u8> {
        let mut operation = vec![0; 80];
        operation[..9].copy_from_slice(&[1, 1, 1, 0, 5, 0, 0, 0, 6]);
        operation[16] = b'A';
        operation
    }

    /// Session 2 is shown commit 1 at studio 1, goes to studio 2, which has none, and reads there.
    fn walk() -> Vec<Call> {
        let read = Call::Read { session: 2, request: request(), output: 80 };
        vec![
            Call::Setup { studios: 2, session_studios: vec![1; 16] },
            Call::Commit { session: 1, operations: new_cart_1() },
            Call::Send { studio: 1 },
            Call::Refresh { studio: 1 },
            read.clone(),
            Call::Move { session: 2, studio: 2 },
            read,
        ]
    }

    #[test]
    fn without_its_move_a_list_is_answered_as_before() {
        assert_eq!(check(&mut Simulated, &System::zeros(), &walk()), Ok((6, true)));
        assert_eq!(check(&mut Simulated, &System::zeros(), &walk()[..4]), Ok((4, false)), "no number is raised yet");
    }

    #[test]
    fn a_list_may_begin_with_loaded_memory() {
        let mut loaded = System::zeros();
        for call in &walk()[..4] {
            loaded.play(&mut Simulated, call);
        }
        assert_eq!(check(&mut Simulated, &loaded, &[&[Call::Load], &walk()[4..]].concat()), Ok((3, true)));
    }

    #[test]
    fn a_number_raised_too_far_is_seen() {
        let mistakes = crate::wrong::all();
        let to_commits = mistakes.iter().find(|mistake| mistake.name == "an answer raises the number to commits").expect("a wrong engine");
        let mut calls = walk();
        calls.insert(4, Call::Commit { session: 1, operations: vec![4, 0, 1].into_iter().chain([0; 77]).collect() });
        let (call, words) = check(&mut crate::wrong::Wrong::new(to_commits), &System::zeros(), &calls).expect_err("the second read waits");
        assert!(matches!(call, Call::Read { session: 2, .. }));
        assert_eq!(words, "without moves waits 2 (found 0), by the rule before S-7 answered state 1 found 1");
    }
}
