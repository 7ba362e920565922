//! What the calls do to a system. The system of a refused call is thrown away,
//! but for a commit refused with 8; so is that of a preview, which is a commit in
//! all else.

use crate::cart::{Cart, Copy, encode_cart};
use crate::control::Outcome;
use crate::operation::{Transaction, act_all, title_spaced, transaction_handed_in, transaction_sized};
use crate::session::{Request, Session};
use crate::sizes::{COMMITS, UNIT, WINDOW};
use crate::system::{Studio, System};
use crate::title::same_title;

/// The end of a call whose system is kept, or the number of the row that stopped it.
pub type Ended = Result<Outcome, u32>;

pub fn commit(system: &mut System, session: u32, operations: &[u8]) -> Ended {
    let place = used_session(system, session)?;
    if session_at(system, place).waiting.is_some() {
        return Err(4);
    }
    if !transaction_sized(operations) {
        return Err(5);
    }
    let transaction = transaction_handed_in(operations).ok_or(6u32)?;
    if operations.chunks_exact(UNIT).any(title_spaced) {
        return Err(16);
    }
    if !system.log.has_room(transaction.len()) || system.commits() == COMMITS {
        return Err(7);
    }
    let outcome = match acted(&system.head_end, &transaction) {
        Some(head_end) => {
            system.head_end = head_end;
            system.log.append(transaction);
            Outcome::Done(system.commits())
        }
        None => Outcome::Refused(8),
    };
    // Also refused with 8, the session was answered by a library of this many commits.
    session_at_mut(system, place).number = system.commits();
    Ok(outcome)
}

pub fn send(system: &mut System, studio: u32) -> Ended {
    let commits = system.commits();
    let studio = known_studio(system, studio)?;
    if studio.sent == commits {
        return Err(9);
    }
    if studio.sent - studio.applied == WINDOW {
        return Err(10);
    }
    studio.sent += 1;
    Ok(Outcome::Done(studio.sent))
}

pub fn refresh(system: &mut System, studio: u32) -> Ended {
    let Studio { sent, applied, .. } = *known_studio(system, studio)?;
    if sent == applied {
        return Err(11);
    }
    let transaction = system.transaction(applied + 1).expect("sent, and not retired").clone();
    let studio = known_studio(system, studio)?;
    act_all(&transaction, &mut studio.copy);
    studio.applied += 1;
    Ok(Outcome::Done(studio.applied))
}

pub fn read(system: &mut System, session: u32, request: &[u8], output: &mut [u8]) -> Ended {
    reading(system, session, request, output, wait)
}

pub fn forward(system: &mut System, session: u32, request: &[u8], output: &mut [u8]) -> Ended {
    reading(system, session, request, output, answer_at_head_end)
}

pub fn collect(system: &mut System, session: u32, output: &mut [u8]) -> Ended {
    let place = used_session(system, session)?;
    let request = session_at(system, place).waiting.clone().ok_or(14u32)?;
    if output.len() < request.output_bytes() {
        return Err(13);
    }
    let answered = answer_at_studio(system, place, &request, output);
    let session = session_at_mut(system, place);
    if answered.is_some() {
        session.waiting = None;
    }
    Ok(answered.unwrap_or(Outcome::Waits(session.number)))
}

/// S-7: "refused by the old 3 and 4 on their conditions". The present studio is no condition.
pub fn move_session(system: &mut System, session: u32, studio: u32) -> Ended {
    let place = used_session(system, session)?;
    known_studio(system, studio)?;
    let session = session_at_mut(system, place);
    if session.waiting.is_some() {
        return Err(4);
    }
    session.studio = usize::try_from(studio).expect("at most 4");
    Ok(Outcome::Done(studio))
}

/// S-9: the oldest transaction "acts on a sixth copy", by the one effect there is. Row 20
/// is "the oldest is still needed or there is none".
pub fn retire(system: &mut System) -> Ended {
    let needed = system.studios.iter().any(|studio| studio.applied == system.retired);
    if needed || system.log.transactions.is_empty() {
        return Err(20);
    }
    act_all(&system.log.take_oldest(), &mut system.sixth);
    system.retired += 1;
    Ok(Outcome::Done(system.retired))
}

/// What a reading call does where the studio's copy is behind the session's number.
type Behind = fn(&mut System, usize, Request, &mut [u8]) -> Outcome;

/// A reading call. S-4: forward has "read's requests, outputs, checks and order", and
/// answers "exactly as read does" where the studio's copy has reached the number.
fn reading(system: &mut System, session: u32, request: &[u8], output: &mut [u8], behind: Behind) -> Ended {
    let place = used_session(system, session)?;
    if session_at(system, place).waiting.is_some() {
        return Err(4);
    }
    let request = Request::handed_in(request).ok_or(12u32)?;
    if output.len() < request.output_bytes() {
        return Err(13);
    }
    let answered = answer_at_studio(system, place, &request, output);
    Ok(answered.unwrap_or_else(|| behind(system, place, request, output)))
}

/// 01, read: "the request is stored and the answer is waits". Output is left alone.
fn wait(system: &mut System, place: usize, request: Request, _output: &mut [u8]) -> Outcome {
    let session = session_at_mut(system, place);
    session.waiting = Some(request);
    Outcome::Waits(session.number)
}

/// S-4: "from the head end's copy with state commits, and the session's number becomes
/// commits". The request is not stored.
fn answer_at_head_end(system: &mut System, place: usize, request: Request, output: &mut [u8]) -> Outcome {
    let commits = system.commits();
    session_at_mut(system, place).number = commits;
    answer(&system.head_end, commits, &request, output)
}

/// The copy that a transaction makes, or `None` where an operation meets its
/// cart in the wrong state.
fn acted(copy: &Copy, transaction: &Transaction) -> Option<Copy> {
    let mut copy = copy.clone();
    for operation in transaction {
        if !operation.meets(&copy) {
            return None;
        }
        operation.act(&mut copy);
    }
    Some(copy)
}

/// Answers from the copy of the session's studio, if that has reached the session's
/// number. S-7: the answer raises the number "to the state it showed, if that is higher".
fn answer_at_studio(system: &mut System, place: usize, request: &Request, output: &mut [u8]) -> Option<Outcome> {
    let number = session_at(system, place).number;
    let studio = &system.studios[session_at(system, place).studio - 1];
    if studio.applied < number {
        return None;
    }
    let state = studio.applied;
    let answered = answer(&studio.copy, state, request, output);
    session_at_mut(system, place).number = number.max(state);
    Some(answered)
}

/// Answers a request from a copy of that state, from output's start.
fn answer(copy: &Copy, state: u32, request: &Request, output: &mut [u8]) -> Outcome {
    let found = match request {
        Request::Numbers(numbers) => {
            for (number, unit) in numbers.iter().zip(output.chunks_exact_mut(UNIT)) {
                put_cart(copy, *number, unit);
            }
            numbers.iter().filter(|number| copy[usize::from(**number) - 1].is_some()).count()
        }
        Request::Title(title) => {
            let matches = |cart: Cart| same_title(cart.title.letters(), title.letters());
            let titled: Vec<u16> = (1..).zip(copy).filter(|(_, cart)| cart.is_some_and(matches)).map(|(number, _)| number).collect();
            match titled[..] {
                [number] => put_cart(copy, number, &mut output[..UNIT]),
                _ => output[..UNIT].fill(0),
            }
            titled.len()
        }
    };
    Outcome::Answered { state, found: u32::try_from(found).expect("at most 128") }
}

fn put_cart(copy: &Copy, number: u16, unit: &mut [u8]) {
    encode_cart(copy[usize::from(number) - 1].as_ref(), number, unit);
}

/// The place, from 0, of what is counted from 1.
fn place_of(number: u32) -> Option<usize> {
    usize::try_from(number).ok().and_then(|number| number.checked_sub(1))
}

/// The place of a used session, or row 3.
fn used_session(system: &System, session: u32) -> Result<usize, u32> {
    let used = |place: &usize| system.sessions.get(*place).is_some_and(Option::is_some);
    place_of(session).filter(used).ok_or(3)
}

/// The studio of a number from 1 to S, or row 3.
fn known_studio(system: &mut System, studio: u32) -> Result<&mut Studio, u32> {
    let place = place_of(studio).ok_or(3u32)?;
    system.studios.get_mut(place).ok_or(3)
}

fn session_at(system: &System, place: usize) -> &Session {
    system.sessions[place].as_ref().expect("a used session")
}

fn session_at_mut(system: &mut System, place: usize) -> &mut Session {
    system.sessions[place].as_mut().expect("a used session")
}
