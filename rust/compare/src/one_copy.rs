//! 01's one-copy order: the list's accepted commits, its commits refused with 8
//! (02's S-3) and its answered reads, forwards (02's S-4) among them, put into
//! one order and played on the single library. A session's entries stand in its
//! order whatever studios it was at (02's S-7). A list may begin with loaded
//! memory (02's S-8): the loaded log's transactions are the first commits then,
//! and the single library begins with the sixth copy, "the retired count already
//! played" (02's S-9).

use crate::call::Call;
use crate::lent::Lent;
use crate::made::SIXTH;
use crate::message;
use crate::single::SingleLibrary;
use simulator::{ANSWERED, Answer, COPY, Control, DONE, REFUSED, UNIT, WAITS};

enum What {
    Commit {
        operations: Vec<u8>,
        number: u32,
    },
    /// A commit refused with 8, and the commits of the control handed back.
    Refused {
        operations: Vec<u8>,
        commits: u32,
    },
    Read {
        by: ReadBy,
        request: Vec<u8>,
        state: u32,
        found: u32,
        written: Vec<u8>,
    },
}

/// The call that a read was answered by.
#[derive(Clone, Copy, PartialEq, Eq)]
enum ReadBy {
    Read,
    Collect,
    Forward,
}

struct Entry {
    /// 0 for a loaded transaction, which stands before every call and "belongs to no session".
    call: u64,
    session: u32,
    what: What,
}

impl Entry {
    /// Commit n stands at 2n, a read or forward at state k and a refusal 8 at k commits at 2k + 1.
    fn place(&self) -> u64 {
        match self.what {
            What::Commit { number, .. } => 2 * u64::from(number),
            What::Read { state: count, .. } | What::Refused { commits: count, .. } => 2 * u64::from(count) + 1,
        }
    }
}

/// The counts of loaded memory.
#[derive(Clone, Copy, PartialEq, Eq, Debug)]
pub struct Loaded {
    pub commits: u32,
    pub retired: u32,
}

/// The list H so far, from a fresh system or from loaded memory.
pub struct History {
    /// What the single library is before the first entry.
    begun: SingleLibrary,
    entries: Vec<Entry>,
    /// Per session, its latest read that waited; before the first such read of H the request that was loaded for it.
    waited: Vec<Vec<u8>>,
    /// Whether that is still the loaded one.
    loaded_request: [bool; 17],
    loaded: Option<Loaded>,
}

impl History {
    pub fn new() -> History {
        let (begun, entries, waited) = (SingleLibrary::new(), Vec::new(), vec![Vec::new(); 17]);
        History { begun, entries, waited, loaded_request: [false; 17], loaded: None }
    }

    /// Before the first call of H, which begins with this memory: "the loaded log's transactions, which belong to no session, are the
    /// first commits of the one-copy order", as far as the log's links lead to them.
    pub fn loaded(control: &Control, lent: &Lent) -> History {
        let Control { commits, retired, .. } = *control;
        let begun = SingleLibrary::begun(&lent.library.lent()[SIXTH * COPY..], retired);
        let mut history = History { begun, loaded: Some(Loaded { commits, retired }), ..History::new() };
        for (number, operations) in (retired + 1..).zip(message::all_in_log(control, lent)) {
            history.entries.push(Entry { call: 0, session: 0, what: What::Commit { operations, number } });
        }
        for (session, unit) in (1..).zip(lent.sessions.lent().chunks_exact(UNIT)).filter(|(_, unit)| unit[0] != 0) {
            history.waited[session] = unit.to_vec();
            history.waited[session][2..4].fill(0);
            history.loaded_request[session] = true;
        }
        history
    }

    /// Takes in one call of H; `output` is as it stood when the call ended. Waits, sends, refreshes, previews, written messages, moves,
    /// loads, retires and refusals have no entry, but for a commit's refusal 8.
    pub fn note(&mut self, number: u64, call: &Call, answer: &Answer, output: &[u8]) {
        match (call, answer.kind) {
            (Call::Commit { session, operations }, DONE) => {
                let what = What::Commit { operations: operations.clone(), number: answer.value };
                self.entries.push(Entry { call: number, session: *session, what });
            }
            (Call::Commit { session, operations }, REFUSED) if answer.value == 8 => {
                let what = What::Refused { operations: operations.clone(), commits: answer.control.commits };
                self.entries.push(Entry { call: number, session: *session, what });
            }
            (Call::Read { session, request, .. }, ANSWERED) => {
                self.push_read(number, *session, (ReadBy::Read, request.clone()), answer, output);
            }
            (Call::Forward { session, request, .. }, ANSWERED) => {
                self.push_read(number, *session, (ReadBy::Forward, request.clone()), answer, output);
            }
            (Call::Read { session, request, .. }, WAITS) => {
                self.waited[*session as usize].clone_from(request);
                self.loaded_request[*session as usize] = false;
            }
            (Call::Collect { session, .. }, ANSWERED) => {
                let request = self.waited[*session as usize].clone();
                self.push_read(number, *session, (ReadBy::Collect, request), answer, output);
            }
            _ => {}
        }
    }

    fn push_read(&mut self, call: u64, session: u32, (by, request): (ReadBy, Vec<u8>), answer: &Answer, output: &[u8]) {
        let numbers = if let [1, count, ..] = request[..] { usize::from(count) } else { 1 };
        let written = output[..output.len().min(80 * numbers)].to_vec();
        let what = What::Read { by, request, state: answer.value, found: answer.found, written };
        self.entries.push(Entry { call, session, what });
    }

    /// Changes the list so far: each operation and each cart shown by `unit`, each request by `request`.
    pub fn change(&mut self, unit: impl Fn(&mut [u8]), request: impl Fn(&mut [u8])) {
        for entry in &mut self.entries {
            match &mut entry.what {
                What::Commit { operations, .. } | What::Refused { operations, .. } => operations.chunks_exact_mut(80).for_each(&unit),
                What::Read { request: asked, written, .. } => {
                    request(asked);
                    written.chunks_exact_mut(80).for_each(&unit);
                }
            }
        }
        self.waited.iter_mut().filter(|asked| !asked.is_empty()).for_each(|asked| request(asked));
    }

    /// The counts of loaded memory, if H begins with that.
    pub fn loaded_counts(&self) -> Option<Loaded> {
        self.loaded
    }

    /// The kind of the loaded request that a collect of this session takes: there is "no waiting read of its session before it in the
    /// list".
    pub fn loaded_request(&self, session: u32) -> Option<u8> {
        let place = session as usize;
        self.loaded_request.get(place).filter(|loaded| **loaded).map(|_| self.waited[place][0])
    }

    pub fn len(&self) -> usize {
        self.entries.len()
    }

    /// How many entries are commits refused with 8.
    pub fn refusals(&self) -> usize {
        self.entries.iter().filter(|entry| matches!(entry.what, What::Refused { .. })).count()
    }

    /// How many entries are forwards.
    pub fn forwards(&self) -> usize {
        self.reads(ReadBy::Forward)
    }

    /// Whether reads, collects and forwards all have entries.
    pub fn is_mixed(&self) -> bool {
        [ReadBy::Read, ReadBy::Collect, ReadBy::Forward].into_iter().all(|by| self.reads(by) > 0)
    }

    fn reads(&self, reading: ReadBy) -> usize {
        self.entries.iter().filter(|entry| matches!(entry.what, What::Read { by, .. } if by == reading)).count()
    }

    /// Builds the order, checks each session's order in it, and replays it.
    /// On a failure: the entry's call number and what was wrong.
    pub fn check(&self) -> Result<(), (u64, String)> {
        let mut order: Vec<&Entry> = self.entries.iter().collect();
        order.sort_by_key(|entry| entry.place());
        let mut latest = [0; 17];
        for entry in &order {
            let before = &mut latest[entry.session as usize];
            if entry.call < *before {
                let words = format!("one-copy order: session {} out of its order", entry.session);
                return Err((entry.call, words));
            }
            *before = entry.call;
        }
        let mut library = self.begun.clone();
        for entry in order {
            replay(&mut library, entry).map_err(|words| (entry.call, words))?;
        }
        Ok(())
    }
}

fn replay(library: &mut SingleLibrary, entry: &Entry) -> Result<(), String> {
    match &entry.what {
        What::Commit { operations, number } => match library.commit(operations) {
            Ok(count) if count == *number => Ok(()),
            Ok(count) => Err(format!("one-copy order: commit {number} is the library's {count}")),
            Err(_) => Err(format!("one-copy order: commit {number} is the library's refusal 8")),
        },
        What::Refused { operations, commits } => match library.commit(operations) {
            Err(count) if count == *commits => Ok(()),
            Err(count) => Err(format!("one-copy order: refusal 8 at {commits} commits is the library's at {count}")),
            Ok(count) => Err(format!("one-copy order: refusal 8 at {commits} commits is the library's commit {count}")),
        },
        What::Read { request, .. } if request.is_empty() => Err("one-copy order: a collect is answered, and no read waited".to_string()),
        What::Read { request, state, found, written, .. } => {
            let (count, held, carts) = library.read(request);
            if (count, held) != (*state, *found) {
                let right = format!("the library's state {count} found {held}");
                return Err(format!("one-copy order: read state {state} found {found} is {right}"));
            }
            match carts == *written {
                true => Ok(()),
                false => Err("one-copy order: the library gives other carts".to_string()),
            }
        }
    }
}

#[cfg(test)]
mod tests {
    use super::*;
    use simulator::Control;

    fn answer(kind: u32, value: u32, found: u32) -> Answer {
        Answer { kind, value, found, control: Control::default() }
    }

    fn new_cart_1() -> Vec<u8> {
        let mut operation = vec![0; 80];
        operation[..9].copy_from_slice(&[1, 1, 1, 0, 5, 0, 0, 0, 6]);
        operation[16] = b'A';
        operation
    }

    fn read_cart_1(session: u32) -> Call {
        let mut request = vec![0; 80];
        request[..2].copy_from_slice(&[1, 1]);
        request[16] = 1;
        Call::Read { session, request, output: 80 }
    }

    /// Session 1 commits and reads; the read's answer is given.
    fn history(read: Answer, output: &[u8]) -> History {
        let mut history = History::new();
        let commit = Call::Commit { session: 1, operations: new_cart_1() };
        history.note(1, &commit, &answer(DONE, 1, 0), &[]);
        history.note(2, &read_cart_1(1), &read, output);
        history
    }

    #[test]
    fn a_read_of_what_was_committed_stands() {
        assert_eq!(history(answer(ANSWERED, 1, 1), &new_cart_1()).check(), Ok(()));
    }

    #[test]
    fn a_read_before_its_own_commit_does_not() {
        let early = history(answer(ANSWERED, 0, 0), &[0; 80]).check();
        assert!(early.unwrap_err().1.contains("session 1 out of its order"));
    }

    #[test]
    fn other_carts_found_or_state_do_not() {
        assert!(history(answer(ANSWERED, 1, 1), &[0; 80]).check().is_err());
        assert!(history(answer(ANSWERED, 1, 0), &new_cart_1()).check().is_err());
        assert!(history(answer(ANSWERED, 2, 1), &new_cart_1()).check().is_err());
    }

    /// Session 1 commits a new cart 1, and session 2 reads it. Session 2's commit of these operations is refused with 8 and hands back so
    /// many commits.
    fn refused(operations: Vec<u8>, commits: u32) -> History {
        let mut history = History::new();
        history.note(1, &Call::Commit { session: 1, operations: new_cart_1() }, &answer(DONE, 1, 0), &[]);
        history.note(2, &read_cart_1(2), &answer(ANSWERED, 1, 1), &new_cart_1());
        let control = Control { commits, ..Control::default() };
        let refusal = Answer { control, ..answer(REFUSED, 8, 0) };
        history.note(3, &Call::Commit { session: 2, operations }, &refusal, &[]);
        history
    }

    #[test]
    fn a_refusal_8_stands_between_the_reads_of_its_count() {
        let mut history = refused(new_cart_1(), 1);
        history.note(4, &read_cart_1(2), &answer(ANSWERED, 1, 1), &new_cart_1());
        assert_eq!((history.len(), history.refusals(), history.check()), (4, 1, Ok(())));
    }

    #[test]
    fn a_read_from_before_a_refusal_8_does_not_stand_after_it() {
        let mut history = refused(new_cart_1(), 1);
        history.note(4, &read_cart_1(2), &answer(ANSWERED, 0, 0), &[0; 80]);
        assert!(history.check().unwrap_err().1.contains("session 2 out of its order"));
    }

    #[test]
    fn a_refusal_8_at_another_count_does_not_stand() {
        assert!(refused(new_cart_1(), 0).check().unwrap_err().1.contains("session 2 out of its order"));
        assert!(refused(new_cart_1(), 2).check().unwrap_err().1.contains("refusal 8 at 2 commits is the library's at 1"));
    }

    #[test]
    fn a_refusal_8_that_the_library_accepts_does_not_stand() {
        let mut cart_2 = new_cart_1();
        cart_2[2] = 2;
        assert!(refused(cart_2, 1).check().unwrap_err().1.contains("is the library's commit 2"));
    }

    #[test]
    fn other_refusals_of_a_commit_have_no_entry() {
        let mut history = History::new();
        for number in [3, 4, 5, 6, 16, 7] {
            let commit = Call::Commit { session: 1, operations: new_cart_1() };
            history.note(1, &commit, &answer(REFUSED, number, 0), &[]);
        }
        assert_eq!(history.len(), 0);
    }

    #[test]
    fn a_preview_or_a_written_message_has_no_entry() {
        let mut history = history(answer(ANSWERED, 1, 1), &new_cart_1());
        let preview = Call::Preview { session: 1, operations: vec![0; 80] };
        history.note(3, &preview, &answer(DONE, 2, 0), &[]);
        history.note(4, &preview, &answer(REFUSED, 8, 0), &[]);
        history.note(4, &Call::VanWrite { number: 1, output: 84 }, &answer(DONE, 84, 0), &[0; 84]);
        history.note(5, &read_cart_1(1), &answer(ANSWERED, 1, 1), &new_cart_1());
        assert_eq!((history.len(), history.check()), (3, Ok(())));
    }

    fn forward_cart_1(session: u32) -> Call {
        let Call::Read { session, request, output } = read_cart_1(session) else { unreachable!("a read") };
        Call::Forward { session, request, output }
    }

    #[test]
    fn a_forward_stands_among_the_reads_of_its_state() {
        let mut history = history(answer(WAITS, 1, 0), &[]);
        history.note(3, &forward_cart_1(2), &answer(ANSWERED, 0, 0), &[0; 80]);
        history.note(4, &forward_cart_1(2), &answer(ANSWERED, 1, 1), &new_cart_1());
        history.note(5, &forward_cart_1(1), &answer(REFUSED, 4, 0), &[]);
        assert!(!history.is_mixed());
        history.note(6, &Call::Collect { session: 1, output: 80 }, &answer(ANSWERED, 1, 1), &new_cart_1());
        history.note(7, &read_cart_1(2), &answer(ANSWERED, 1, 1), &new_cart_1());
        assert_eq!((history.len(), history.forwards(), history.is_mixed(), history.check()), (5, 2, true, Ok(())));
    }

    #[test]
    fn a_read_from_before_a_forward_does_not_stand_after_it() {
        let mut history = history(answer(WAITS, 1, 0), &[]);
        history.note(3, &forward_cart_1(2), &answer(ANSWERED, 1, 1), &new_cart_1());
        history.note(4, &read_cart_1(2), &answer(ANSWERED, 0, 0), &[0; 80]);
        assert!(history.check().unwrap_err().1.contains("session 2 out of its order"));
    }

    #[test]
    fn a_forward_with_another_state_than_that_of_its_carts_does_not_stand() {
        let mut history = history(answer(WAITS, 1, 0), &[]);
        history.note(3, &forward_cart_1(2), &answer(ANSWERED, 0, 1), &new_cart_1());
        assert!(history.check().unwrap_err().1.contains("read state 0 found 1 is the library's state 0 found 0"));
    }

    /// Session 2 is shown cart 1 after commit 1, and moves; then it is answered so.
    fn moved(state: u32, output: &[u8]) -> History {
        let mut history = history(answer(WAITS, 1, 0), &[]);
        history.note(3, &read_cart_1(2), &answer(ANSWERED, 1, 1), &new_cart_1());
        history.note(4, &Call::Move { session: 2, studio: 2 }, &answer(DONE, 2, 0), &[]);
        history.note(5, &read_cart_1(2), &answer(ANSWERED, state, state), output);
        history
    }

    #[test]
    fn a_move_has_no_entry_and_its_session_is_one() {
        let walked = moved(1, &new_cart_1());
        assert_eq!((walked.len(), walked.check()), (3, Ok(())));
        let back = moved(0, &[0; 80]).check();
        assert_eq!(back.unwrap_err(), (3, "one-copy order: session 2 out of its order".to_string()));
    }

    /// Cart 1 is new by commit 1 and withdrawn by commit 2, and session 1 waits for it with number 2: memory that a list begins with.
    fn loaded() -> History {
        let (mut lent, control) = (Lent::zeros(), Control { commits: 2, oldest: 1, ..Control::default() });
        let log = lent.log.lent_mut();
        log[..80].copy_from_slice(&new_cart_1());
        log[14] = 2;
        log[80..83].copy_from_slice(&[4, 0, 1]);
        let unit = lent.sessions.lent_mut();
        (unit[0], unit[1], unit[2], unit[16]) = (1, 1, 2, 1);
        History::loaded(&control, &lent)
    }

    #[test]
    fn loaded_transactions_are_the_first_commits_and_reads_stand_between_them() {
        let mut history = loaded();
        history.note(1, &read_cart_1(2), &answer(ANSWERED, 0, 0), &[0; 80]);
        history.note(2, &read_cart_1(2), &answer(ANSWERED, 1, 1), &new_cart_1());
        history.note(3, &Call::Load, &answer(DONE, 2, 0), &[]);
        history.note(4, &Call::Commit { session: 2, operations: new_cart_1() }, &answer(DONE, 3, 0), &[]);
        assert_eq!((history.len(), history.loaded_counts(), history.check()), (5, Some(Loaded { commits: 2, retired: 0 }), Ok(())));
        history.note(5, &read_cart_1(2), &answer(ANSWERED, 2, 0), &[0; 80]);
        assert!(history.check().unwrap_err().1.contains("session 2 out of its order"));
    }

    /// Of five commits four are retired, and made cart 1; the fifth, in record 3, withdraws it.
    fn loaded_retired() -> History {
        let (mut lent, control) = (Lent::zeros(), Control { commits: 5, retired: 4, oldest: 3, ..Control::default() });
        lent.library.lent_mut()[SIXTH * COPY..][..80].copy_from_slice(&new_cart_1());
        lent.log.lent_mut()[160..163].copy_from_slice(&[4, 0, 1]);
        History::loaded(&control, &lent)
    }

    #[test]
    fn the_library_begins_with_the_sixth_copy_and_the_retired_count() {
        let mut history = loaded_retired();
        history.note(1, &read_cart_1(2), &answer(ANSWERED, 4, 1), &new_cart_1());
        history.note(2, &read_cart_1(2), &answer(ANSWERED, 5, 0), &[0; 80]);
        history.note(3, &Call::Retire, &answer(DONE, 5, 0), &[]);
        history.note(4, &Call::Commit { session: 2, operations: new_cart_1() }, &answer(DONE, 6, 0), &[]);
        assert_eq!((history.len(), history.loaded_counts(), history.check()), (4, Some(Loaded { commits: 5, retired: 4 }), Ok(())));
        history.note(5, &read_cart_1(3), &answer(ANSWERED, 3, 0), &[0; 80]);
        assert!(history.check().unwrap_err().1.contains("read state 3 found 0 is the library's state 4 found 1"), "before the sixth copy");
    }

    #[test]
    fn a_commit_that_is_numbered_without_the_loaded_ones_does_not_stand() {
        let mut history = loaded();
        history.note(1, &Call::Commit { session: 2, operations: new_cart_1() }, &answer(DONE, 1, 0), &[]);
        assert!(history.check().is_err());
    }

    #[test]
    fn a_refusal_8_stands_after_the_loaded_commits() {
        let (mut history, withdraw) = (loaded(), [&[4, 0, 1][..], &[0; 77]].concat());
        let commit = Call::Commit { session: 2, operations: withdraw };
        history.note(1, &commit, &Answer { control: Control { commits: 2, ..Control::default() }, ..answer(REFUSED, 8, 0) }, &[]);
        assert_eq!(history.check(), Ok(()));
    }

    #[test]
    fn a_collect_takes_the_loaded_request_until_a_read_waits() {
        let mut history = loaded();
        assert_eq!((history.loaded_request(1), history.loaded_request(2), history.loaded_request(17)), (Some(1), None, None));
        let collect = Call::Collect { session: 1, output: 80 };
        history.note(1, &collect, &answer(ANSWERED, 2, 0), &[0; 80]);
        assert_eq!(history.check(), Ok(()));
        history.note(2, &read_cart_1(1), &answer(WAITS, 3, 0), &[]);
        assert_eq!(history.loaded_request(1), None);
        history.note(3, &collect, &answer(ANSWERED, 1, 1), &new_cart_1());
        assert!(history.check().unwrap_err().1.contains("session 1 out of its order"), "at an earlier state than before");
    }

    #[test]
    fn a_collect_with_no_request_does_not_stand() {
        let mut history = loaded();
        history.note(1, &Call::Collect { session: 2, output: 80 }, &answer(ANSWERED, 2, 0), &[0; 80]);
        assert!(history.check().unwrap_err().1.contains("no read waited"));
    }

    #[test]
    fn a_collect_has_the_request_of_the_read_that_waited() {
        let mut history = history(answer(WAITS, 1, 0), &[]);
        let collect = Call::Collect { session: 1, output: 80 };
        history.note(3, &collect, &answer(WAITS, 1, 0), &[7; 80]);
        history.note(4, &collect, &answer(ANSWERED, 1, 1), &new_cart_1());
        assert_eq!((history.len(), history.check()), (2, Ok(())));
    }
}
