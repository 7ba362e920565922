//! Mistakes of the number that an answered read, collect or forward raises to the state that it shows (02's S-7).

use super::mistake::{Mistake, Notes, is_refused, mistake, right, unmoved_mistake, walk_mistake};
use crate::call::Call;
use crate::left::set_number;
use crate::lent::Lent;
use crate::rows;
use simulator::{ANSWERED, Answer, Control, DONE, WAITS};

pub const MISTAKES: &[Mistake] = &[
    walk_mistake("answers of a studio raise no number", not_raised),
    walk_mistake("an answered read raises no number", not_by_read),
    walk_mistake("an answered collect raises no number", not_by_collect),
    walk_mistake("a forward answered by the studio raises no number", not_by_forward),
    walk_mistake("an answer that finds nothing raises no number", where_found),
    walk_mistake("an answer by title raises no number", by_numbers),
    walk_mistake("an answer raises the number by one", by_one),
    walk_mistake("an answer raises a number of 0 only", from_0),
    walk_mistake("an answer raises session 1's number", of_session_1),
    unmoved_mistake("an answer raises the number to the studio's sent", to_sent),
    unmoved_mistake("an answer raises the number to commits", to_commits),
    unmoved_mistake("an answer raises the number to the state + 1", past_state),
    mistake("an answer raises the number to the low byte of the state", low_byte),
    mistake("an answer raises the numbers of all sessions of the studio", of_the_studio),
    mistake("a read that waits raises the number to commits", by_waiting),
    mistake("a collect that waits raises the number to the studio's sent", by_waiting_on),
    mistake("a read refused by 13 raises the number to the studio's applied", by_13),
    mistake("a refresh raises the numbers of its studio's sessions", by_refresh),
];

/// An answer of a studio: its call and session, the session's number before it, the state and what was found.
struct Shown<'a> {
    call: &'a Call,
    session: u32,
    studio: u32,
    request: Vec<u8>,
    number: u32,
    state: u32,
    found: u32,
}

impl Shown<'_> {
    /// The number that a mistake leaves which raises it only sometimes.
    fn raised_if(&self, raises: bool) -> u32 {
        if raises { self.number.max(self.state) } else { self.number }
    }
}

fn shown<'a>(call: &'a Call, control: &Control, unit: &[u8], answer: &Answer) -> Option<Shown<'a>> {
    let (session, number) = (rows::session_of(call)?, rows::session_number(unit));
    if !rows::reads(call) || answer.kind != ANSWERED || rows::by_head_end(call, number, answer) {
        return None;
    }
    let request = if matches!(call, Call::Collect { .. }) { unit } else { call.input() }.to_vec();
    Some(Shown { call, session, studio: rows::session_studio(call, control), request, number, state: answer.value, found: answer.found })
}

/// Plays the call; after an answer of a studio `change` makes the mistake.
fn changed(call: &Call, control: Control, lent: &mut Lent, change: fn(&Shown<'_>, &Control, &mut Lent)) -> Answer {
    let unit = rows::stored(call, lent);
    let answer = right(call, control, lent);
    if let Some(shown) = shown(call, &control, &unit, &answer) {
        change(&shown, &control, lent);
    }
    answer
}

fn not_raised(_: &mut Notes, call: &Call, control: Control, lent: &mut Lent) -> Answer {
    changed(call, control, lent, |shown, _, lent| set_number(lent, shown.session, shown.number))
}

fn not_by_read(_: &mut Notes, call: &Call, control: Control, lent: &mut Lent) -> Answer {
    changed(call, control, lent, |shown, _, lent| {
        set_number(lent, shown.session, shown.raised_if(!matches!(shown.call, Call::Read { .. })));
    })
}

fn not_by_collect(_: &mut Notes, call: &Call, control: Control, lent: &mut Lent) -> Answer {
    changed(call, control, lent, |shown, _, lent| {
        set_number(lent, shown.session, shown.raised_if(!matches!(shown.call, Call::Collect { .. })));
    })
}

fn not_by_forward(_: &mut Notes, call: &Call, control: Control, lent: &mut Lent) -> Answer {
    changed(call, control, lent, |shown, _, lent| {
        set_number(lent, shown.session, shown.raised_if(!matches!(shown.call, Call::Forward { .. })));
    })
}

fn where_found(_: &mut Notes, call: &Call, control: Control, lent: &mut Lent) -> Answer {
    changed(call, control, lent, |shown, _, lent| set_number(lent, shown.session, shown.raised_if(shown.found > 0)))
}

fn by_numbers(_: &mut Notes, call: &Call, control: Control, lent: &mut Lent) -> Answer {
    changed(call, control, lent, |shown, _, lent| set_number(lent, shown.session, shown.raised_if(shown.request[0] == 1)))
}

fn by_one(_: &mut Notes, call: &Call, control: Control, lent: &mut Lent) -> Answer {
    changed(call, control, lent, |shown, _, lent| set_number(lent, shown.session, shown.state.min(shown.number + 1)))
}

fn from_0(_: &mut Notes, call: &Call, control: Control, lent: &mut Lent) -> Answer {
    changed(call, control, lent, |shown, _, lent| set_number(lent, shown.session, shown.raised_if(shown.number == 0)))
}

fn of_session_1(_: &mut Notes, call: &Call, control: Control, lent: &mut Lent) -> Answer {
    changed(call, control, lent, |shown, control, lent| {
        set_number(lent, shown.session, shown.number);
        if control.session_studios[0] != 0 {
            set_number(lent, 1, shown.state);
        }
    })
}

fn to_sent(_: &mut Notes, call: &Call, control: Control, lent: &mut Lent) -> Answer {
    changed(call, control, lent, |shown, control, lent| {
        set_number(lent, shown.session, shown.number.max(control.sent[shown.studio as usize - 1]));
    })
}

fn to_commits(_: &mut Notes, call: &Call, control: Control, lent: &mut Lent) -> Answer {
    changed(call, control, lent, |shown, control, lent| set_number(lent, shown.session, control.commits))
}

fn past_state(_: &mut Notes, call: &Call, control: Control, lent: &mut Lent) -> Answer {
    changed(call, control, lent, |shown, control, lent| set_number(lent, shown.session, control.commits.min(shown.state + 1)))
}

fn low_byte(_: &mut Notes, call: &Call, control: Control, lent: &mut Lent) -> Answer {
    changed(call, control, lent, |shown, _, lent| set_number(lent, shown.session, shown.number.max(shown.state % 256)))
}

/// Raises the numbers of all sessions of a studio to this state.
fn raise_all(studio: u32, state: u32, control: &Control, lent: &mut Lent) {
    for (session, _) in (1..).zip(control.session_studios).filter(|(_, other)| *other == studio) {
        let unit = rows::stored(&Call::Collect { session, output: 0 }, lent);
        set_number(lent, session, state.max(rows::session_number(&unit)));
    }
}

fn of_the_studio(_: &mut Notes, call: &Call, control: Control, lent: &mut Lent) -> Answer {
    changed(call, control, lent, |shown, control, lent| raise_all(shown.studio, shown.state, control, lent))
}

fn by_waiting(_: &mut Notes, call: &Call, control: Control, lent: &mut Lent) -> Answer {
    let answer = right(call, control, lent);
    if let (Call::Read { session, .. }, WAITS) = (call, answer.kind) {
        set_number(lent, *session, control.commits);
    }
    answer
}

fn by_waiting_on(_: &mut Notes, call: &Call, control: Control, lent: &mut Lent) -> Answer {
    let answer = right(call, control, lent);
    if let (Call::Collect { session, .. }, WAITS) = (call, answer.kind) {
        let sent = control.sent[rows::session_studio(call, &control) as usize - 1];
        set_number(lent, *session, sent.max(answer.value));
    }
    answer
}

fn by_13(_: &mut Notes, call: &Call, control: Control, lent: &mut Lent) -> Answer {
    let number = rows::session_number(&rows::stored(call, lent));
    let answer = right(call, control, lent);
    if let (Call::Read { session, .. }, true) = (call, is_refused(&answer, 13)) {
        let applied = rows::applied(call, &control).expect("the session is in use");
        set_number(lent, *session, applied.max(number));
    }
    answer
}

fn by_refresh(_: &mut Notes, call: &Call, control: Control, lent: &mut Lent) -> Answer {
    let answer = right(call, control, lent);
    if let (Call::Refresh { studio }, DONE) = (call, answer.kind) {
        raise_all(*studio, answer.value, &control, lent);
    }
    answer
}
