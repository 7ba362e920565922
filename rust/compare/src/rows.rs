//! 01's rows and 02's, each looked at for itself, whatever the rows above it say.
//!
//! Where a row's words need something that an earlier row has found wanting,
//! the bytes that are there are taken: memory is cut or filled with zeros to
//! its length, operations are the whole 80-byte units, and an output is too
//! short for an unknown request if it is shorter than 80, for an unknown
//! transaction if it is shorter than the message of one operation. What the log
//! makes is what its transactions make as far as links lead.

use crate::call::Call;
use crate::lent::{Lent, Part};
use crate::made;
use crate::message;
use crate::single;
use simulator::{ANSWERED, Answer, COMMITS, COPY, Control, LIBRARY, LOG, RECORDS, SESSION_MEMORY, UNIT};
use std::borrow::Cow;

/// The rows of this call that hold before it, row 2 apart.
pub fn holding(call: &Call, control: &Control, lent: &Lent) -> Vec<u32> {
    let holds = |row: &&u32| **row != 2 && row_holds(**row, call, control, lent);
    call.rows().iter().filter(holds).copied().collect()
}

/// Row 2 for memory of any length.
pub fn out_of_layout(control: &Control, lent: &Lent) -> bool {
    let library = sized(&lent.library, LIBRARY);
    let log = log(lent);
    let sessions = sized(&lent.sessions, SESSION_MEMORY);
    !simulator::of_layout(&library, &log, &sessions, control)
}

/// The first bytes of a memory, zeros past its end.
fn sized(part: &Part, length: usize) -> Cow<'_, [u8]> {
    match part.lent().get(..length) {
        Some(bytes) => Cow::Borrowed(bytes),
        None => Cow::Owned((0..length).map(|at| part.byte(at)).collect()),
    }
}

fn row_holds(row: u32, call: &Call, control: &Control, lent: &Lent) -> bool {
    match (row, call) {
        (1, _) => !lent.right_lengths(),
        (3, Call::Send { studio } | Call::Refresh { studio }) => unknown_studio(*studio, control),
        (3, Call::Move { studio, .. }) => session_studio(call, control) == 0 || unknown_studio(*studio, control),
        (3, _) => session_studio(call, control) == 0,
        (4, _) => waiting(call, lent),
        (14, _) => !waiting(call, lent),
        (5..=8 | 16, Call::Commit { operations, .. } | Call::Preview { operations, .. }) => edit_row_holds(row, operations, control, lent),
        (9..=11, Call::Send { studio } | Call::Refresh { studio }) => studio_row_holds(row, *studio, control),
        (12, Call::Read { request, .. } | Call::Forward { request, .. }) => !simulator::request_in_form(request),
        (13, Call::Read { request, output, .. } | Call::Forward { request, output, .. }) => *output < output_asked(request),
        (13, Call::Collect { output, .. }) => *output < output_asked(&stored(call, lent)),
        (15, Call::Setup { studios, session_studios }) => {
            let above = session_studios.iter().any(|studio| u32::from(*studio) > *studios);
            !(1..=4).contains(studios) || session_studios.len() != 16 || above
        }
        (17, Call::VanWrite { number, output }) => {
            !(1..=control.commits).contains(number) || *output < message::output_asked(control, lent, *number)
        }
        (19, _) => made::faults(control, lent).any(),
        (20, _) => !is_retirable(control),
        (21, Call::VanWrite { number, .. }) => (1..=control.retired).contains(number),
        _ => false,
    }
}

/// Whether row 20 lets a retire through: the log has a transaction, and "every studio has applied" the oldest.
pub fn is_retirable(control: &Control) -> bool {
    let studios = control.applied.iter().take(control.studios as usize);
    control.retired < control.commits && studios.copied().all(|applied| applied > control.retired)
}

/// Row 3 by a studio: outside 1 to S.
pub fn unknown_studio(studio: u32, control: &Control) -> bool {
    !(1..=control.studios).contains(&studio)
}

/// The session that a call names.
pub fn session_of(call: &Call) -> Option<u32> {
    match call {
        Call::Commit { session, .. } | Call::Preview { session, .. } => Some(*session),
        Call::Read { session, .. } | Call::Collect { session, .. } | Call::Forward { session, .. } => Some(*session),
        Call::Move { session, .. } => Some(*session),
        _ => None,
    }
}

/// The place of the call's session among 1 to 16, 0 when there is none.
pub fn place(call: &Call) -> usize {
    match session_of(call) {
        Some(session @ 1..=16) => session as usize,
        _ => 0,
    }
}

/// The studio of the call's session, 0 when there is none.
pub fn session_studio(call: &Call, control: &Control) -> u32 {
    match session_of(call) {
        Some(session @ 1..=16) => control.session_studios[session as usize - 1],
        _ => 0,
    }
}

/// The session's 80 bytes, zeros for a session outside 1 to 16.
pub fn stored(call: &Call, lent: &Lent) -> Vec<u8> {
    match session_of(call) {
        Some(session @ 1..=16) => {
            let start = UNIT * (session as usize - 1);
            (start..start + UNIT).map(|at| lent.sessions.byte(at)).collect()
        }
        _ => vec![0; UNIT],
    }
}

/// The number that a session's 80 bytes have.
pub fn session_number(unit: &[u8]) -> u32 {
    u32::from(unit[2]) | u32::from(unit[3]) << 8
}

/// What the studio of the call's session has applied, if it has one.
pub fn applied(call: &Call, control: &Control) -> Option<u32> {
    let place = (session_studio(call, control) as usize).checked_sub(1)?;
    control.applied.get(place).copied()
}

/// Whether an answered forward is the head end's to answer, by 02's words (S-4): the studio has not reached the session's number.
pub fn by_head_end(call: &Call, number: u32, answer: &Answer) -> bool {
    let forwarded = matches!(call, Call::Forward { .. }) && answer.kind == ANSWERED;
    forwarded && applied(call, &answer.control).is_some_and(|applied| applied < number)
}

/// Whether a call is one of those that answer a read.
pub fn reads(call: &Call) -> bool {
    matches!(call, Call::Read { .. } | Call::Collect { .. } | Call::Forward { .. })
}

fn waiting(call: &Call, lent: &Lent) -> bool {
    stored(call, lent)[0] != 0
}

/// How much output a request asks for: at least 80, also when out of form.
pub fn output_asked(request: &[u8]) -> usize {
    match request {
        [1, count, ..] => UNIT * usize::from(*count).clamp(1, 32),
        _ => UNIT,
    }
}

fn edit_row_holds(row: u32, operations: &[u8], control: &Control, lent: &Lent) -> bool {
    let length = operations.len();
    match row {
        5 => !length.is_multiple_of(UNIT) || !(80..=640).contains(&length),
        6 => operations.chunks_exact(UNIT).any(|unit| !simulator::operation_in_form(unit)),
        16 => spaced_title_met(operations),
        7 => free_records(control) < length / UNIT || control.commits == COMMITS,
        _ => wrong_state_met(operations, lent),
    }
}

/// The records that the log's chain does not have.
pub fn free_records(control: &Control) -> usize {
    RECORDS.saturating_sub(control.used as usize)
}

fn in_form(operations: &[u8]) -> impl Iterator<Item = (usize, &[u8])> {
    operations.chunks_exact(UNIT).enumerate().filter(|(_, unit)| simulator::operation_in_form(unit))
}

/// Row 16: a new or retitle has a spaced title; operations out of form are passed over.
pub fn spaced_title_met(operations: &[u8]) -> bool {
    in_form(operations).any(|(_, unit)| matches!(unit[0], 1 | 2) && title_spaced(unit))
}

/// Whether the title of 80 bytes begins or ends with byte 32, by 02's words (S-2) and not by the simulator: of an operation, a record, a
/// held cart or a title request.
pub fn title_spaced(unit: &[u8]) -> bool {
    let title = title(unit);
    title.first() == Some(&32) || title.last() == Some(&32)
}

/// The title of 80 bytes that have one.
pub fn title(unit: &[u8]) -> &[u8] {
    unit[16..].get(..usize::from(unit[1])).unwrap_or(&[])
}

/// The log's 512 records, for memory of any length.
pub fn log(lent: &Lent) -> Cow<'_, [u8]> {
    sized(&lent.log, LOG)
}

/// The six copies, for memory of any length.
pub fn library(lent: &Lent) -> Cow<'_, [u8]> {
    sized(&lent.library, LIBRARY)
}

/// The head end's copy, for memory of any length.
pub fn head_end(lent: &Lent) -> Vec<u8> {
    sized(&lent.library, COPY).into_owned()
}

/// Row 8; operations out of form are passed over.
pub fn wrong_state_met(operations: &[u8], lent: &Lent) -> bool {
    first_at_fault(operations, &head_end(lent)).is_some()
}

/// The place, from 0, of the first operation that meets its cart in the wrong state.
pub fn first_at_fault(operations: &[u8], head_end: &[u8]) -> Option<usize> {
    let mut copy = head_end.to_vec();
    for (place, unit) in in_form(operations) {
        if !single::meets(&copy, unit) {
            return Some(place);
        }
        single::act(&mut copy, unit);
    }
    None
}

fn studio_row_holds(row: u32, studio: u32, control: &Control) -> bool {
    let (1..=4) = studio else { return false };
    let place = studio as usize - 1;
    let (sent, applied) = (control.sent[place], control.applied[place]);
    match row {
        9 => sent == control.commits,
        10 => sent.wrapping_sub(applied) == 32,
        _ => sent == applied,
    }
}
