//! What a refused call leaves, and what a commit, a read, a collect, a forward, a move, a load, a retire, a van_write and a receive answer
//! and leave, by the words of 01 and 02 and not by the simulator (the form of one operation apart, of a receive). A refused call changes
//! nothing, with one exception (02's S-3). A commit takes the first free records, and a retire gives those of the oldest transaction back
//! (02's S-9). A reading call that no row stops is answered by the session's studio, and raises its number (02's S-7), or it waits, or is
//! answered by the head end (02's S-4). A move changes one word of control (02's S-7), a load nothing (02's S-8). A van_write changes nothing
//! but output, a receive nothing but the van's copy (02's S-6).

use crate::call::Call;
use crate::delivery::Delivery;
use crate::faults;
use crate::lent::Lent;
use crate::log;
use crate::made::SIXTH;
use crate::message;
use crate::single;
use simulator::{ANSWERED, Answer, COPY, Control, DONE, HELD, REFUSED, UNIT, VanAnswer, WAITS};
use std::cmp::Ordering;

/// The answer of a call that this number refuses; `lent` is what it was lent, and becomes what it leaves.
pub fn by_refusal(number: u32, call: &Call, control: Control, lent: &mut Lent) -> Answer {
    if let (Call::Commit { session, .. }, 8) = (call, number) {
        set_number(lent, *session, control.commits);
    }
    // A refused setup has no control to hand back.
    let control = if matches!(call, Call::Setup { .. }) { Control::default() } else { control };
    Answer { kind: REFUSED, value: number, found: 0, control }
}

/// The answer of a commit that no row stops; `lent` is what it was lent, and becomes what it leaves. "Commit takes records from the front
/// of the free chain."
pub fn by_commit(session: u32, operations: &[u8], mut control: Control, lent: &mut Lent) -> Answer {
    let mut transactions = log::transactions(lent.log.lent(), &control);
    let free = log::free(lent.log.lent(), &control);
    let (taken, free) = free.split_at(operations.len() / UNIT);
    for (record, operation) in taken.iter().zip(operations.chunks_exact(UNIT)) {
        lent.log.lent_mut()[UNIT * record..UNIT * (record + 1)].copy_from_slice(operation);
        single::act(&mut lent.library.lent_mut()[..COPY], operation);
    }
    transactions.push(taken.to_vec());
    log::put_chains(lent.log.lent_mut(), &mut control, &transactions, free);
    control.commits += 1;
    set_number(lent, session, control.commits);
    Answer { kind: DONE, value: control.commits, found: 0, control }
}

/// The answer of a retire that no row stops; `lent` is what it was lent, and becomes what it leaves. "The oldest transaction, once every
/// studio has applied it, acts on a sixth copy", and its records "join" the free chain's "end in the order of their operations".
pub fn by_retire(mut control: Control, lent: &mut Lent) -> Answer {
    let mut transactions = log::transactions(lent.log.lent(), &control);
    let mut free = log::free(lent.log.lent(), &control);
    let oldest = transactions.remove(0);
    for record in &oldest {
        let operation = &lent.log.lent()[UNIT * record..UNIT * (record + 1)];
        single::act(&mut lent.library.lent_mut()[SIXTH * COPY..], operation);
    }
    free.extend(oldest);
    log::put_chains(lent.log.lent_mut(), &mut control, &transactions, &free);
    control.retired += 1;
    Answer { kind: DONE, value: control.retired, found: 0, control }
}

/// The answer of a read that no row stops; `lent` is what it was lent, and becomes what it leaves. "If applied of the session's studio is
/// at least the session's number, answered; else the request is stored and the answer is waits, with the session's number."
pub fn by_read(session: u32, request: &[u8], control: Control, lent: &mut Lent) -> Answer {
    by_studio(session, request, control, lent).unwrap_or_else(|| {
        let unit = session_unit(lent, session);
        unit[..2].copy_from_slice(&request[..2]);
        unit[16..].copy_from_slice(&request[16..]);
        waits(session, control, lent)
    })
}

/// That of a collect: "The same test on the stored request; answered clears it".
pub fn by_collect(session: u32, control: Control, lent: &mut Lent) -> Answer {
    let request = session_unit(lent, session).to_vec();
    let Some(answer) = by_studio(session, &request, control, lent) else { return waits(session, control, lent) };
    let unit = session_unit(lent, session);
    unit[..2].fill(0);
    unit[16..].fill(0);
    answer
}

/// That of a forward: "Where the studio's copy has reached the session's number, it answers exactly as read does. Otherwise it answers from
/// the head end's copy with state commits, and the session's number becomes commits."
pub fn by_forward(session: u32, request: &[u8], control: Control, lent: &mut Lent) -> Answer {
    by_studio(session, request, control, lent).unwrap_or_else(|| {
        set_number(lent, session, control.commits);
        shown(0, control.commits, request, control, lent)
    })
}

/// The answer of the session's studio, if that has reached the session's number: it "raises the session's number to the state it showed, if
/// that is higher".
fn by_studio(session: u32, request: &[u8], control: Control, lent: &mut Lent) -> Option<Answer> {
    let studio = control.session_studios[session as usize - 1] as usize;
    let (applied, number) = (control.applied[studio - 1], number(lent, session));
    if applied < number {
        return None;
    }
    set_number(lent, session, number.max(applied));
    Some(shown(studio, applied, request, control, lent))
}

/// An answer from the copy of a studio, or of the head end for 0, with this state.
fn shown(copy: usize, state: u32, request: &[u8], control: Control, lent: &mut Lent) -> Answer {
    let (found, carts) = single::read(&lent.library.lent()[COPY * copy..COPY * (copy + 1)], request);
    lent.output.lent_mut()[..carts.len()].copy_from_slice(&carts);
    Answer { kind: ANSWERED, value: state, found, control }
}

fn waits(session: u32, control: Control, lent: &Lent) -> Answer {
    Answer { kind: WAITS, value: number(lent, session), found: 0, control }
}

/// The answer of a move that no row stops: it "moves a session to another studio, returns that studio". No lent byte changes.
pub fn by_move(session: u32, studio: u32, mut control: Control) -> Answer {
    control.session_studios[session as usize - 1] = studio;
    Answer { kind: DONE, value: studio, found: 0, control }
}

/// The answer of a load that no row stops: it "tests" memory "and returns commits". Neither control nor a lent byte changes.
pub fn by_load(control: Control) -> Answer {
    Answer { kind: DONE, value: control.commits, found: 0, control }
}

/// The answer of a van_write that no row stops; `lent` is what it was lent, and becomes what it leaves. "The writer puts one message at
/// its output's start, leaves later bytes, returns the message's length."
pub fn by_van_write(number: u32, control: Control, lent: &mut Lent) -> Answer {
    let operations = message::operations_in_log(&control, lent, number).expect("the log is of the layout");
    let message = message::of(number, &operations);
    lent.output.lent_mut()[..message.len()].copy_from_slice(&message);
    Answer { kind: DONE, value: message.len() as u32, found: 0, control }
}

/// The answer of a receive; `delivery` is what it was lent, and becomes what it leaves. "The receiver applies number applied + 1 and
/// returns it. It answers a number already applied as held and changes nothing."
pub fn by_receive(delivery: &mut Delivery) -> VanAnswer {
    match faults::holding(delivery.copy.lent(), delivery.message.lent()).is_empty() {
        true => by_number(delivery),
        false => VanAnswer { kind: REFUSED, value: 17, applied: delivery.applied },
    }
}

/// The same where message and copy are in form.
pub fn by_number(delivery: &mut Delivery) -> VanAnswer {
    let (number, applied) = (delivery.number(), delivery.applied);
    match u64::from(number).cmp(&(u64::from(applied) + 1)) {
        Ordering::Greater => VanAnswer { kind: REFUSED, value: 18, applied },
        Ordering::Less => VanAnswer { kind: HELD, value: number, applied },
        Ordering::Equal => {
            let copy = delivery.copy.lent_mut();
            message::operations(delivery.message.lent()).for_each(|operation| single::act(copy, operation));
            VanAnswer { kind: DONE, value: number, applied: number }
        }
    }
}

/// The 80 bytes of a session from 1 to 16.
fn session_unit(lent: &mut Lent, session: u32) -> &mut [u8] {
    let start = UNIT * (session as usize - 1);
    &mut lent.sessions.lent_mut()[start..start + UNIT]
}

/// The number of a session from 1 to 16.
fn number(lent: &Lent, session: u32) -> u32 {
    let at = UNIT * (session as usize - 1) + 2;
    u32::from(lent.sessions.byte(at)) | u32::from(lent.sessions.byte(at + 1)) << 8
}

/// Gives a session from 1 to 16 this number: bytes 2 and 3 of its 80.
pub fn set_number(lent: &mut Lent, session: u32, number: u32) {
    let at = UNIT * (session as usize - 1) + 2;
    lent.sessions.lent_mut()[at..at + 2].copy_from_slice(&(number as u16).to_le_bytes());
}

#[cfg(test)]
mod tests {
    use super::*;

    /// What a van with this applied and an empty copy answers to a message of new cart 1 with this number, and whether the cart is then held.
    fn received(applied: u32, number: u32) -> (u32, u32, u32, bool) {
        let mut operation = [0; UNIT];
        operation[..9].copy_from_slice(&[1, 1, 1, 0, 5, 0, 0, 0, 6]);
        operation[16] = b' ';
        let mut delivery = Delivery::new(&[0; COPY], applied, &message::of(number, &operation));
        let answer = by_receive(&mut delivery);
        (answer.kind, answer.value, answer.applied, delivery.copy.byte(0) == 1)
    }

    #[test]
    fn a_message_is_applied_held_or_refused() {
        assert_eq!(received(0, 1), (DONE, 1, 1, true));
        assert_eq!(received(65_534, 65_535), (DONE, 65_535, 65_535, true));
        assert_eq!(received(2, 2), (HELD, 2, 2, false));
        assert_eq!(received(2, 1), (HELD, 1, 2, false));
        assert_eq!(received(u32::MAX, 1), (HELD, 1, u32::MAX, false));
        assert_eq!(received(2, 4), (REFUSED, 18, 2, false));
        assert_eq!(received(2, 0), (REFUSED, 17, 2, false));
    }
}
