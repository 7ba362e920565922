//! Plays a call, a title search, a receive or a conversion on the simulator and on the engine and compares them.

use crate::call::Call;
use crate::conversion::Conversion;
use crate::coverage::Coverage;
use crate::delivery::Delivery;
use crate::differ::{answer_text, conversion_difference, first_difference, receive_difference, search_difference};
use crate::engine::{Engine, simulate};
use crate::kept;
use crate::keys::{ANSWERS_IN_LIST, DONE, FORWARD_IN_LIST, HEAD_END, PREVIEWED, PREVIEWED_IN_LIST, READ, REFUSED_IN_LIST, UNMOVED};
use crate::left;
use crate::lent::Lent;
use crate::loads::Over;
use crate::one_copy::History;
use crate::rows;
use crate::sought::Sought;
use crate::unmoved::{self, System};
use crate::walks::Walk;
use crate::wall::Wall;
use crate::watch;
use crate::written::Written;
use simulator::{ANSWERED, Answer, Control, REFUSED, VanAnswer};

/// Where and how engine and simulator parted.
#[derive(Debug)]
pub struct Mismatch {
    pub call_number: u64,
    pub call: String,
    pub words: String,
}

/// What an engine is held to.
#[derive(Clone, Copy, PartialEq, Eq)]
pub enum Judge {
    /// The simulator, what `left.rs` says, and all below.
    All,
    /// The one-copy order, what S-6 says of fresh vans, and what S-10 says of conversions.
    Order,
    /// S-7's "nobody walks back in time".
    Walks,
    /// S-7's "In a list without moves every answer is the same as it was".
    Unmoved,
    /// That what a list leaves is loaded (S-8), after each of its calls.
    Restarts,
}

pub struct Player<'e> {
    engine: &'e mut dyn Engine,
    judge: Judge,
    pub coverage: Coverage,
    /// Calls, searches, receives and conversions of this list, and calls of all lists.
    pub call_number: u64,
    pub calls: u64,
    /// What the list has written for vans.
    pub written: Written,
    scratch: Option<Wall>,
    /// What the call now played was lent.
    before: Lent,
}

impl<'e> Player<'e> {
    pub fn new(engine: &'e mut dyn Engine, judge: Judge) -> Player<'e> {
        let (coverage, written) = (Coverage::default(), Written::default());
        Player { engine, judge, coverage, call_number: 0, calls: 0, written, scratch: None, before: Lent::zeros() }
    }

    /// Whether every call is compared with the simulator's.
    pub fn is_compared(&self) -> bool {
        self.judge == Judge::All
    }

    /// Begins the list of a seed.
    pub fn begin_list(&mut self, seed: u64) {
        self.call_number = 0;
        self.written = Written::default();
        watch::list_begins(seed);
    }

    /// Plays one call; the wall holds what it left and handed back.
    pub fn play(&mut self, wall: &mut Wall, call: &Call) -> Result<Answer, Mismatch> {
        self.call_number += 1;
        self.calls += 1;
        wall.lend(call, self.call_number);
        watch::call_begins(self.call_number, call);
        let number = rows::session_number(&rows::stored(call, &wall.played));
        let answer = match self.judge {
            Judge::All => self.compare(wall, call)?,
            _ => self.engine.play(call, wall.control, &mut wall.played),
        };
        if self.judge == Judge::Walks {
            self.check_walk(wall, call, &answer)?;
        }
        wall.follow(call, number, &answer);
        Ok(answer)
    }

    fn compare(&mut self, wall: &mut Wall, call: &Call) -> Result<Answer, Mismatch> {
        let control = wall.control;
        let mut holding = rows::holding(call, &control, &wall.simulated);
        let before = Coverage::before(call, &control, &wall.simulated);
        self.before.copy_from(&wall.simulated);
        let expected = simulate(call, control, &mut wall.simulated);
        let answer = self.engine.play(call, control, &mut wall.played);
        let difference = first_difference("simulator", (&expected, &wall.simulated), (&answer, &wall.played));
        if let Some(words) = difference {
            let ends = format!("{} / {}", answer_text(&expected), answer_text(&answer));
            let call = format!("{call}\n  with {control:?}\n  simulator / engine: {ends}");
            return Err(self.mismatch(call, words));
        }
        self.settle_row_2(&mut holding, call, &answer, wall, &control);
        self.check_rows(&holding, call, &answer)?;
        self.check_left(call, control, &answer, &wall.played)?;
        self.check_preview(wall, call, &answer)?;
        self.check_walk(wall, call, &answer)?;
        self.coverage.note(call, &control, &holding, &before, &wall.simulated, &answer);
        self.coverage.note_told(call, wall.told.of(call), &control, &before, &answer);
        self.coverage.note_forward(call, &control, &before, &wall.simulated, &answer);
        self.coverage.note_after_forward(call, &wall.told, &control, &before, &answer);
        self.coverage.note_walk(call, wall.walks.of(call), &control, &before, &answer);
        Ok(answer)
    }

    /// Plays a call of a list, and keeps the message that it may have written.
    pub fn play_on(&mut self, wall: &mut Wall, call: &Call) -> Result<Answer, Mismatch> {
        let answer = self.play(wall, call)?;
        self.written.note(call, &answer, wall.played.output.lent());
        Ok(answer)
    }

    /// Plays a call of H and takes it into the history.
    pub fn play_in(&mut self, history: &mut History, wall: &mut Wall, call: &Call) -> Result<Answer, Mismatch> {
        let (previewed, over) = (wall.answer_previewed(call), Over::before(history, wall, call));
        let (number, walk) = (rows::session_number(&rows::stored(call, &wall.played)), wall.walks.of(call));
        let answer = self.play_on(wall, call)?;
        if previewed.is_some() {
            self.coverage.count_end(PREVIEWED_IN_LIST, &answer);
        }
        let entries = history.len();
        history.note(self.call_number, call, &answer, wall.played.output.lent());
        if answer.kind == REFUSED && history.len() > entries {
            self.coverage.count((REFUSED_IN_LIST, answer.control.commits, answer.value));
        }
        if rows::reads(call) && history.len() > entries {
            let end = if rows::by_head_end(call, number, &answer) { HEAD_END } else { READ };
            self.note_entry(call, walk, end);
        }
        if let Some(over) = over {
            self.coverage.note_over(call, &over.after(call, &answer), &answer);
        }
        Ok(answer)
    }

    /// Loads what a list has left, and says whether a list may begin with it: always, for an engine that is held to that.
    pub fn load(&mut self, wall: &mut Wall) -> Result<bool, Mismatch> {
        let whole = left::by_load(wall.control);
        let answer = self.play(wall, &Call::Load)?;
        let loaded = answer == whole;
        match self.judge {
            Judge::All | Judge::Restarts if !loaded => Err(self.not_loaded(&answer)),
            _ => Ok(loaded),
        }
    }

    /// S-8: what a list leaves is loaded, whenever that is. Engine and simulator are asked, beside the list.
    pub fn check_restart(&mut self, wall: &mut Wall) -> Result<(), Mismatch> {
        if !matches!(self.judge, Judge::All | Judge::Restarts) {
            return Ok(());
        }
        self.coverage.restarts += 1;
        let whole = left::by_load(wall.control);
        let mut answer = self.engine.play(&Call::Load, wall.control, &mut wall.played);
        if answer == whole && self.judge == Judge::All {
            answer = simulate(&Call::Load, wall.control, &mut wall.simulated);
        }
        match answer == whole {
            true => Ok(()),
            false => Err(self.not_loaded(&answer)),
        }
    }

    fn not_loaded(&self, answer: &Answer) -> Mismatch {
        self.mismatch("load, beside the list".to_string(), format!("what a list leaves is not loaded: {}", answer_text(answer)))
    }

    /// An answered read, collect or forward that is an entry; `walk` is its session's before it.
    fn note_entry(&mut self, call: &Call, walk: Walk, end: u32) {
        if let Call::Forward { request, .. } = call {
            self.coverage.count((FORWARD_IN_LIST, u32::from(request[0]), end));
        }
        if walk.moved && walk.shown.is_some() {
            self.coverage.count((ANSWERS_IN_LIST, 0, end));
        }
    }

    /// Plays a call on a changed copy of the wall, which itself stays; after a preview also the commit that it was of.
    pub fn play_aside(&mut self, wall: &Wall, call: &Call, change: impl FnOnce(&mut Wall)) -> Result<Answer, Mismatch> {
        let mut aside = self.scratch.take().unwrap_or_else(Wall::zeros);
        aside.copy_from(wall);
        change(&mut aside);
        aside.mirror();
        let answer = self.play(&mut aside, call).and_then(|answer| self.play_previewed(&mut aside).map(|()| answer));
        self.scratch = Some(aside);
        answer
    }

    fn play_previewed(&mut self, wall: &mut Wall) -> Result<(), Mismatch> {
        match wall.previewed.clone() {
            Some((commit, _)) => self.play(wall, &commit).map(|_| ()),
            None => Ok(()),
        }
    }

    /// Plays a title search, which is no call and changes nothing.
    pub fn search(&mut self, sought: &Sought) -> Result<(), Mismatch> {
        self.call_number += 1;
        watch::call_begins(self.call_number, sought);
        let expected = sought.simulate();
        let mut played = sought.clone();
        let search = self.engine.search(&mut played);
        if let Some(words) = search_difference((expected, sought), (search, &played)) {
            return Err(self.mismatch(sought.to_string(), words));
        }
        self.coverage.note_search(sought.copy.lent(), sought.title.lent(), search);
        Ok(())
    }

    /// Receives a message in a van, which is no call; the delivery holds what the engine leaves.
    pub fn receive(&mut self, delivery: &mut Delivery) -> Result<VanAnswer, Mismatch> {
        self.call_number += 1;
        watch::call_begins(self.call_number, delivery);
        if self.judge != Judge::All {
            return Ok(self.engine.receive(delivery));
        }
        let before = delivery.clone();
        let (mut simulated, mut by_words) = (before.clone(), before.clone());
        let (expected, right) = (simulated.simulate(), left::by_receive(&mut by_words));
        let answer = self.engine.receive(delivery);
        let difference = receive_difference("simulator", (expected, &simulated), (answer, delivery))
            .or_else(|| receive_difference("left.rs", (right, &by_words), (answer, delivery)));
        if let Some(words) = difference {
            return Err(self.mismatch(before.to_string(), words));
        }
        self.coverage.note_receive(&before, answer);
        Ok(answer)
    }

    /// Plays a conversion, which is no call.
    pub fn convert(&mut self, conversion: &Conversion) -> Result<(), Mismatch> {
        self.call_number += 1;
        watch::call_begins(self.call_number, conversion);
        let answer = self.there_and_back(conversion).map_err(|words| self.mismatch(conversion.to_string(), words))?;
        self.coverage.note_conversion(conversion, &answer);
        Ok(())
    }

    /// A conversion, held to the simulator and, apart from it, to 02's words; where it is accepted, also back.
    fn there_and_back(&mut self, conversion: &Conversion) -> Result<Answer, String> {
        let (mut played, mut simulated) = (conversion.clone(), conversion.clone());
        let answer = self.engine.convert(&mut played);
        if self.judge == Judge::All {
            let expected = simulated.simulate();
            conversion_difference((&expected, &simulated), (&answer, &played)).map_or(Ok(()), Err)?;
        }
        kept::check(conversion, &answer, &played)?;
        if answer.kind == simulator::DONE {
            let mut back = played.back();
            let answer = self.engine.convert(&mut back);
            kept::check_back(conversion, &answer, &back)?;
        }
        Ok(answer)
    }

    /// Checks the one-copy order of a whole list.
    pub fn check_order(&mut self, history: &History) -> Result<(), Mismatch> {
        self.coverage.count_order(history);
        if !matches!(self.judge, Judge::All | Judge::Order) {
            return Ok(());
        }
        history.check().map_err(|(call_number, words)| Mismatch { call_number, call: "(the whole list)".to_string(), words })
    }

    /// Plays a whole list, from its setup or from what it began with, again without its moves.
    pub fn check_unmoved(&mut self, start: &System, calls: &[Call]) -> Result<(), Mismatch> {
        if !matches!(self.judge, Judge::All | Judge::Unmoved) {
            return Ok(());
        }
        let (played, raised) = unmoved::check(self.engine, start, calls).map_err(|(call, words)| self.mismatch(call.to_string(), words))?;
        self.coverage.unmoved += played;
        if raised {
            self.coverage.count((UNMOVED, 0, DONE));
        }
        Ok(())
    }

    pub fn mismatch(&self, call: String, words: String) -> Mismatch {
        Mismatch { call_number: self.call_number, call, words }
    }

    /// Row 2 is what the answer says, except after row 1, where it is looked at.
    fn settle_row_2(&self, holding: &mut Vec<u32>, call: &Call, answer: &Answer, wall: &Wall, control: &Control) {
        let applies = call.rows().contains(&2) && answer.kind == REFUSED;
        let holds = match answer.value {
            1 => rows::out_of_layout(control, &wall.simulated),
            number => number == 2,
        };
        if applies && holds {
            holding.push(2);
        }
    }

    /// The answer is the first row that holds, or no refusal when none does.
    fn check_rows(&self, holding: &[u32], call: &Call, answer: &Answer) -> Result<(), Mismatch> {
        let first = call.rows().iter().find(|row| holding.contains(row));
        let refused = (answer.kind == REFUSED).then_some(answer.value);
        if first.copied() == refused {
            return Ok(());
        }
        let words = format!("rows that hold {holding:?}, but the answer is refusal {refused:?}");
        Err(self.mismatch(call.to_string(), words))
    }

    /// 02's "nobody walks back in time" (S-7): a session's answer shows no lower state than the one before, nor than its loaded number.
    fn check_walk(&self, wall: &Wall, call: &Call, answer: &Answer) -> Result<(), Mismatch> {
        let walk = wall.walks.of(call);
        if answer.kind != ANSWERED || !walk.leads_back(answer.value) {
            return Ok(());
        }
        let before = match walk.shown {
            Some(shown) => format!("the session was shown {shown} before"),
            None => format!("the session's loaded number is {}", walk.loaded),
        };
        let words = format!("a walk back in time: state {}, and {before}", answer.value);
        Err(self.mismatch(call.to_string(), words))
    }

    /// A refused call, a commit, the reading calls, a move, a load, a retire and a van_write leave what `left.rs` says, apart from the
    /// simulator.
    fn check_left(&mut self, call: &Call, control: Control, answer: &Answer, played: &Lent) -> Result<(), Mismatch> {
        let right = match call {
            _ if answer.kind == REFUSED => left::by_refusal(answer.value, call, control, &mut self.before),
            Call::Commit { session, operations } => left::by_commit(*session, operations, control, &mut self.before),
            Call::Read { session, request, .. } => left::by_read(*session, request, control, &mut self.before),
            Call::Collect { session, .. } => left::by_collect(*session, control, &mut self.before),
            Call::Forward { session, request, .. } => left::by_forward(*session, request, control, &mut self.before),
            Call::Move { session, studio } => left::by_move(*session, *studio, control),
            Call::Load => left::by_load(control),
            Call::Retire => left::by_retire(control, &mut self.before),
            Call::VanWrite { number, .. } => left::by_van_write(*number, control, &mut self.before),
            _ => return Ok(()),
        };
        match first_difference("left.rs", (&right, &self.before), (answer, played)) {
            Some(words) => Err(self.mismatch(call.to_string(), format!("what the call leaves, {words}"))),
            None => Ok(()),
        }
    }

    /// 02's preview (S-1): the commit right after it gives the answer that it gave.
    fn check_preview(&mut self, wall: &Wall, call: &Call, answer: &Answer) -> Result<(), Mismatch> {
        let Some(previewed) = wall.answer_previewed(call) else { return Ok(()) };
        if (previewed.kind, previewed.value, previewed.found) != (answer.kind, answer.value, answer.found) {
            let words = format!("previewed as {}, but the commit is {}", answer_text(&previewed), answer_text(answer));
            return Err(self.mismatch(call.to_string(), words));
        }
        self.coverage.count_end(PREVIEWED, answer);
        Ok(())
    }
}

#[cfg(test)]
mod tests {
    use super::*;
    use crate::engine::Simulated;

    #[test]
    fn a_commit_must_answer_what_its_preview_did() {
        let mut engine = Simulated;
        let mut player = Player::new(&mut engine, Judge::All);
        let mut wall = Wall::zeros();
        player.play(&mut wall, &Call::Setup { studios: 1, session_studios: vec![1; 16] }).expect("no mismatch");
        let preview = Call::Preview { session: 1, operations: vec![0; 81] };
        player.play(&mut wall, &preview).expect("no mismatch");
        let (commit, previewed) = wall.previewed.clone().expect("the latest call was a preview");
        player.play(&mut wall.clone(), &commit).expect("no mismatch");

        let otherwise = Answer { value: previewed.value + 1, ..previewed };
        wall.previewed = Some((commit.clone(), otherwise));
        let mismatch = player.play(&mut wall, &commit).expect_err("another answer than the preview's");
        assert_eq!(mismatch.words, "previewed as refused 6 (found 0), but the commit is refused 5 (found 0)");
    }

    #[test]
    fn a_refused_call_must_leave_what_01_and_02_say() {
        let control = Control { commits: 300, ..Control::default() };
        let mut raised = Lent::zeros();
        raised.sessions.lent_mut()[82..84].copy_from_slice(&[44, 1]);
        let passes = |call: &Call, value: u32, played: &Lent| {
            let answer = Answer { kind: REFUSED, value, found: 0, control };
            Player::new(&mut Simulated, Judge::All).check_left(call, control, &answer, played).is_ok()
        };
        let commit = Call::Commit { session: 2, operations: Vec::new() };
        let preview = Call::Preview { session: 2, operations: Vec::new() };
        for (call, value, raises) in [(&commit, 8, true), (&commit, 7, false), (&commit, 16, false), (&preview, 8, false)] {
            assert_eq!(passes(call, value, &raised), raises, "{call} refused {value}");
            assert_eq!(passes(call, value, &Lent::zeros()), !raises, "{call} refused {value}");
        }
    }

    #[test]
    fn a_van_write_must_leave_nothing_but_its_message() {
        let (control, call) = (Control { commits: 1, oldest: 1, ..Control::default() }, Call::VanWrite { number: 1, output: 85 });
        let passes = |value: u32, later: u8, link: u8| {
            let mut engine = Simulated;
            let mut player = Player::new(&mut engine, Judge::All);
            player.before.log.lent_mut()[..3].copy_from_slice(&[4, 0, 7]);
            player.before.output.set(&[9; 85]);
            let mut played = player.before.clone();
            played.output.set(&[&[1, 0, 1, 0, 4, 0, 7][..], &[0; 9], &[link], &[0; 67], &[later]].concat());
            let answer = Answer { kind: simulator::DONE, value, found: 0, control };
            player.check_left(&call, control, &answer, &played).is_ok()
        };
        assert!(passes(84, 9, 0), "the message, and the later byte as it was");
        assert!(!passes(80, 9, 0), "another length");
        assert!(!passes(84, 0, 0), "the later byte is cleared");
        assert!(!passes(84, 9, 2), "a link is left in");
    }

    #[test]
    fn a_move_must_leave_nothing_but_the_studio_of_its_session() {
        let control = Control { studios: 2, session_studios: [1; 16], ..Control::default() };
        let call = Call::Move { session: 3, studio: 2 };
        let passes = |value: u32, studios: [u32; 16], number: u8| {
            let answer = Answer { kind: simulator::DONE, value, found: 0, control: Control { session_studios: studios, ..control } };
            let mut played = Lent::zeros();
            played.sessions.lent_mut()[162] = number;
            Player::new(&mut Simulated, Judge::All).check_left(&call, control, &answer, &played).is_ok()
        };
        let (mut moved, mut another) = ([1; 16], [1; 16]);
        (moved[2], another[3]) = (2, 2);
        assert!(passes(2, moved, 0), "the studio, and the session is there");
        assert!(!passes(1, moved, 0), "another studio is returned");
        assert!(!passes(2, [1; 16], 0), "the session is where it was");
        assert!(!passes(2, another, 0), "another session is moved");
        assert!(!passes(2, moved, 1), "the session's number is another");
    }

    #[test]
    fn a_load_must_leave_everything() {
        let control = Control { studios: 2, commits: 3, sent: [2; 4], ..Control::default() };
        let passes = |value: u32, handed_back: Control, byte: u8| {
            let answer = Answer { kind: simulator::DONE, value, found: 0, control: handed_back };
            let mut played = Lent::zeros();
            played.sessions.lent_mut()[2] = byte;
            Player::new(&mut Simulated, Judge::All).check_left(&Call::Load, control, &answer, &played).is_ok()
        };
        assert!(passes(3, control, 0), "commits, and nothing else");
        assert!(!passes(0, control, 0), "commits are not returned");
        assert!(!passes(3, Control { sent: [0; 4], ..control }, 0), "control is another");
        assert!(!passes(3, control, 1), "a number is another");
    }

    /// A system with two commits of new cart 1, a re-cut and a withdraw of it, of which the first is applied.
    fn two_commits() -> Wall {
        let mut engine = Simulated;
        let mut player = Player::new(&mut engine, Judge::Order);
        let mut wall = Wall::zeros();
        let mut new = [0; 80];
        new[..17].copy_from_slice(&[1, 1, 1, 0, 5, 0, 0, 0, 6, 0, 0, 0, 0, 0, 0, 0, b'A']);
        let later = [&[3, 0, 1, 0, 7, 0, 0, 0, 8][..], &[0; 71], &[4, 0, 1], &[0; 77]].concat();
        let edits = [new.to_vec(), later].map(|operations| Call::Commit { session: 1, operations });
        let calls = [&[Call::Setup { studios: 1, session_studios: vec![1; 16] }], &edits[..], &[Call::Send { studio: 1 }]].concat();
        for call in calls.iter().chain(&[Call::Refresh { studio: 1 }]) {
            assert_eq!(player.play(&mut wall, call).expect("no mismatch").kind, simulator::DONE);
        }
        wall.mirror();
        wall
    }

    #[test]
    fn a_retire_must_leave_what_02_says() {
        type Change = fn(&mut Answer, &mut Lent);
        let passes = |change: Change| {
            let mut engine = Simulated;
            let (mut wall, mut player) = (two_commits(), Player::new(&mut engine, Judge::All));
            let control = wall.control;
            player.before.copy_from(&wall.played);
            let mut answer = simulate(&Call::Retire, control, &mut wall.played);
            change(&mut answer, &mut wall.played);
            player.check_left(&Call::Retire, control, &answer, &wall.played).is_ok()
        };
        assert!(passes(|_, _| ()), "as it is");
        let wrong: [(&str, Change); 6] = [
            ("the number of operations is returned", |answer, _| answer.value = 2),
            ("used stays", |answer, _| answer.control.used = 3),
            ("the free chain's last record stays", |answer, _| answer.control.free_last = 512),
            ("the sixth copy is not acted on", |_, lent| lent.library.lent_mut()[5 * 10_240..].fill(0)),
            ("the record is not cleared", |_, lent| lent.log.lent_mut()[0] = 1),
            ("the record is not joined", |_, lent| lent.log.lent_mut()[511 * 80 + 12] = 0),
        ];
        wrong.into_iter().for_each(|(name, change)| assert!(!passes(change), "{name}"));
    }

    #[test]
    fn a_commit_must_take_the_first_free_records() {
        let (mut wall, control) = (two_commits(), two_commits().control);
        let call = Call::Commit { session: 1, operations: [&[1, 1, 1, 0, 5, 0, 0, 0, 6][..], &[0; 7], b"A", &[0; 63]].concat() };
        wall.lend(&call, 0);
        let mut engine = Simulated;
        let mut player = Player::new(&mut engine, Judge::All);
        let before = wall.played.clone();
        let answer = simulate(&call, control, &mut wall.played);
        let mut passes = |played: &Lent| {
            player.before.copy_from(&before);
            player.check_left(&call, control, &answer, played).is_ok()
        };
        assert!(passes(&wall.played), "record 4, after 1 to 3");
        wall.played.log.lent_mut().copy_within(3 * 80..4 * 80, 4 * 80);
        assert!(!passes(&wall.played), "record 5 too");
    }

    #[test]
    fn what_a_list_leaves_must_be_loaded() {
        for judge in [Judge::All, Judge::Restarts] {
            let mut engine = Simulated;
            let mut player = Player::new(&mut engine, judge);
            let mut wall = Wall::zeros();
            player.play(&mut wall, &Call::Setup { studios: 1, session_studios: vec![1; 16] }).expect("no mismatch");
            assert!(player.check_restart(&mut wall).is_ok() && player.load(&mut wall).is_ok_and(|loaded| loaded));
            wall.played.library.lent_mut()[..17].copy_from_slice(&[1, 1, 1, 0, 5, 0, 0, 0, 6, 0, 0, 0, 0, 0, 0, 0, b'A']);
            wall.mirror();
            let words = "what a list leaves is not loaded: refused 19 (found 0)";
            assert_eq!(player.check_restart(&mut wall).expect_err("a cart, and no commit").words, words);
            assert_eq!(player.load(&mut wall).expect_err("a cart, and no commit").words, words);
        }
    }

    #[test]
    fn a_collect_must_clear_its_request_and_raise_the_number() {
        // Studio 1 has applied 2 of 3 commits; session 1 waits for cart 1.
        let control = Control { session_studios: [1; 16], commits: 3, applied: [2, 0, 0, 0], ..Control::default() };
        let call = Call::Collect { session: 1, output: 80 };
        let left = |waiting: u8, number: u8| {
            let mut lent = Lent::zeros();
            let unit = lent.sessions.lent_mut();
            (unit[0], unit[1], unit[2], unit[16]) = (waiting, waiting, number, waiting);
            lent.output.set(&[0; 80]);
            lent
        };
        let passes = |before: u8, kind: u32, value: u32, played: &Lent| {
            let mut engine = Simulated;
            let mut player = Player::new(&mut engine, Judge::All);
            player.before = left(1, before);
            player.check_left(&call, control, &Answer { kind, value, found: 0, control }, played).is_ok()
        };
        assert!(passes(1, ANSWERED, 2, &left(0, 2)), "answered, with the number raised");
        assert!(passes(2, ANSWERED, 2, &left(0, 2)), "answered, and the number is the state already");
        assert!(!passes(1, ANSWERED, 2, &left(0, 1)), "the number is not raised");
        assert!(!passes(1, ANSWERED, 2, &left(0, 3)), "the number is raised to commits");
        assert!(!passes(1, ANSWERED, 2, &left(1, 2)), "the request is kept");
        assert!(passes(3, simulator::WAITS, 3, &left(1, 3)), "waits, and nothing is changed");
        assert!(!passes(3, simulator::WAITS, 2, &left(1, 3)), "waits for another number");
    }

    #[test]
    fn an_answer_must_not_lead_back_in_time() {
        let control = Control { session_studios: [1; 16], ..Control::default() };
        let answer = |value: u32| Answer { kind: ANSWERED, value, found: 0, control };
        let read = |session: u32| Call::Read { session, request: vec![1; 80], output: 80 };
        let mut wall = Wall::zeros();
        wall.follow(&read(2), 0, &answer(5));
        let mut engine = Simulated;
        let player = Player::new(&mut engine, Judge::All);
        assert!(player.check_walk(&wall, &read(2), &answer(5)).is_ok() && player.check_walk(&wall, &read(1), &answer(4)).is_ok());
        let mismatch = player.check_walk(&wall, &read(2), &answer(4)).expect_err("a lower state");
        assert_eq!(mismatch.words, "a walk back in time: state 4, and the session was shown 5 before");
    }

    #[test]
    fn a_forward_must_answer_and_leave_what_02_says() {
        // Studio 1 has applied 1 of 3 commits; cart 1 is held at the head end alone.
        let control = Control { session_studios: [1; 16], commits: 3, applied: [1, 0, 0, 0], ..Control::default() };
        let mut request = vec![0; 80];
        (request[0], request[1], request[16]) = (1, 1, 1);
        let call = Call::Forward { session: 1, request, output: 81 };
        let left = |number: u8, held: u8| {
            let mut lent = Lent::zeros();
            (lent.library.lent_mut()[0], lent.sessions.lent_mut()[2]) = (1, number);
            lent.output.set(&[9; 81]);
            lent.output.lent_mut()[..80].fill(0);
            lent.output.lent_mut()[0] = held;
            lent
        };
        let passes = |number: u8, value: u32, found: u32, played: &Lent| {
            let mut engine = Simulated;
            let mut player = Player::new(&mut engine, Judge::All);
            player.before = left(number, 9);
            let answer = Answer { kind: simulator::ANSWERED, value, found, control };
            player.check_left(&call, control, &answer, played).is_ok()
        };
        assert!(passes(2, 3, 1, &left(3, 1)), "the head end answers, with the number raised");
        assert!(!passes(2, 3, 1, &left(2, 1)), "the number is not raised");
        assert!(!passes(2, 1, 1, &left(3, 1)), "the state is what the studio has applied");
        assert!(!passes(2, 3, 0, &left(3, 0)), "the carts are the studio's");
        assert!(passes(1, 1, 0, &left(1, 0)), "the studio answers, and the number is its state already");
        assert!(passes(0, 1, 0, &left(1, 0)), "the studio answers, and the number is raised to its state");
        assert!(!passes(0, 1, 0, &left(0, 0)), "the number is not raised to the studio's state");
        assert!(!passes(1, 1, 0, &left(3, 0)), "the number is raised to commits");
        assert!(!passes(1, 3, 1, &left(3, 1)), "the head end answers though the studio has caught up");
    }
}
