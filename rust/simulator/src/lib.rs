//! The cart wall of document 01, with requests S-1 to S-10 of document 02, by
//! another hand.
//!
//! Every call decodes the lent memory and the control into a value, acts on
//! the value, and encodes it again; a preview, a load and the van's writer throw
//! the value away. The title search, the van's receiver and the conversions of old
//! files are no such calls: they are lent one copy, and the search looks at its bytes
//! as they are. Nothing here was taken from the engine.

mod bytes;
mod calls;
mod cart;
mod control;
mod load;
mod log;
mod old;
mod operation;
mod search;
mod session;
mod sizes;
mod system;
mod title;
mod van;

pub use control::{ANSWERED, Answer, Control, DONE, HELD, Outcome, REFUSED, VanAnswer, WAITS};
pub use old::{from_old, to_old};
pub use search::{Search, search};
pub use sizes::{
    CARTS, COMMITS, COPY, LIBRARY, LOG, NUMBERS, OLD_FILE, OLD_MARK, OLD_TITLE, OLD_UNIT, RECORDS, SESSION_MEMORY, SESSIONS, STUDIOS,
    TRANSACTION_OPERATIONS, UNIT, WINDOW,
};

/// Setup. All memory is zero but the log, whose records are all free, in order from 1.
pub fn setup(library: &mut [u8], log: &mut [u8], sessions: &mut [u8], studios: u32, session_studios: &[u8]) -> Answer {
    let refused = |number| Outcome::Refused(number).with(Control::default());
    if !right_lengths(library, log, sessions) {
        return refused(1);
    }
    let known = (1..=4).contains(&studios);
    let above = session_studios.iter().any(|studio| u32::from(*studio) > studios);
    if !known || session_studios.len() != SESSIONS || above {
        return refused(15);
    }
    library.fill(0);
    sessions.fill(0);
    let mut control = Control { studios, ..Control::default() };
    log::Log::fresh().encode(log, &mut control);
    for (word, studio) in control.session_studios.iter_mut().zip(session_studios) {
        *word = u32::from(*studio);
    }
    Outcome::Done(0).with(control)
}

/// Commit. Refused with 8 it leaves its session's number as commits, and no other
/// refusal leaves anything.
pub fn commit(library: &mut [u8], log: &mut [u8], sessions: &mut [u8], control: Control, session: u32, operations: &[u8]) -> Answer {
    play(library, log, sessions, control, |system| calls::commit(system, session, operations))
}

/// Preview: what commit would answer. It reads the memory, writes none of it,
/// and hands control back as it was passed, also where the answer is 8.
pub fn preview(library: &mut [u8], log: &mut [u8], sessions: &mut [u8], control: Control, session: u32, operations: &[u8]) -> Answer {
    look(library, log, sessions, control, |system| calls::commit(system, session, operations))
}

/// Send.
pub fn send(library: &mut [u8], log: &mut [u8], sessions: &mut [u8], control: Control, studio: u32) -> Answer {
    play(library, log, sessions, control, |system| calls::send(system, studio))
}

/// Refresh.
pub fn refresh(library: &mut [u8], log: &mut [u8], sessions: &mut [u8], control: Control, studio: u32) -> Answer {
    play(library, log, sessions, control, |system| calls::refresh(system, studio))
}

/// Read. Answered, it raises the session's number to the state it showed, if that is
/// higher.
pub fn read(
    library: &mut [u8],
    log: &mut [u8],
    sessions: &mut [u8],
    control: Control,
    session: u32,
    request: &[u8],
    output: &mut [u8],
) -> Answer {
    play(library, log, sessions, control, |system| calls::read(system, session, request, output))
}

/// Collect. Answered, it raises the session's number as read does.
pub fn collect(library: &mut [u8], log: &mut [u8], sessions: &mut [u8], control: Control, session: u32, output: &mut [u8]) -> Answer {
    play(library, log, sessions, control, |system| calls::collect(system, session, output))
}

/// Forward: a read that does not wait. Where its studio's copy is behind the session's
/// number, the head end's copy answers and the number becomes commits; else it is
/// answered, and the number raised, as by read.
pub fn forward(
    library: &mut [u8],
    log: &mut [u8],
    sessions: &mut [u8],
    control: Control,
    session: u32,
    request: &[u8],
    output: &mut [u8],
) -> Answer {
    play(library, log, sessions, control, |system| calls::forward(system, session, request, output))
}

/// Move: the session's studio becomes this one. No byte of memory changes, and so not
/// the session's number.
pub fn move_session(library: &mut [u8], log: &mut [u8], sessions: &mut [u8], control: Control, session: u32, studio: u32) -> Answer {
    play(library, log, sessions, control, |system| calls::move_session(system, session, studio))
}

/// Load: whether each copy is what the log makes from the sixth copy, and each logged
/// operation met its cart in the right state. It is lent its memory to be read alone,
/// returns commits, and hands control back as it was passed.
pub fn load(library: &[u8], log: &[u8], sessions: &[u8], control: Control) -> Answer {
    look(library, log, sessions, control, |system| load::load(system))
}

/// Retire: the oldest transaction acts on the sixth copy and its records are free again,
/// once every studio has applied it. Returns how many are retired by now.
pub fn retire(library: &mut [u8], log: &mut [u8], sessions: &mut [u8], control: Control) -> Answer {
    play(library, log, sessions, control, calls::retire)
}

/// The van's writer: the message of one transaction, at output's start. It reads the
/// memory, writes none of it, and hands control back as it was passed.
pub fn van_write(library: &mut [u8], log: &mut [u8], sessions: &mut [u8], control: Control, number: u32, output: &mut [u8]) -> Answer {
    look(library, log, sessions, control, |system| van::write(system, number, output))
}

/// The van's receiver: a message acts on the van's copy if its number is applied + 1,
/// and otherwise changes nothing.
pub fn van_receive(copy: &mut [u8], applied: u32, message: &[u8]) -> VanAnswer {
    van::receive(copy, applied, message)
}

/// Whether control and memory are of the layout, all three lengths being right.
pub fn of_layout(library: &[u8], log: &[u8], sessions: &[u8], control: &Control) -> bool {
    system::System::decode(library, log, sessions, control).is_some()
}

/// Whether 80 bytes are an operation in form, as handed in.
pub fn operation_in_form(unit: &[u8]) -> bool {
    operation::Operation::handed_in(unit).is_some()
}

/// Whether 80 bytes, an operation in form, are a new or retitle whose title
/// begins or ends with byte 32. Any 80 bytes have an answer.
pub fn title_spaced(unit: &[u8]) -> bool {
    operation::title_spaced(unit)
}

/// Whether bytes are a read request in form, as handed in.
pub fn request_in_form(request: &[u8]) -> bool {
    session::Request::handed_in(request).is_some()
}

fn right_lengths(library: &[u8], log: &[u8], sessions: &[u8]) -> bool {
    library.len() == LIBRARY && log.len() == LOG && sessions.len() == SESSION_MEMORY
}

/// The system that control and memory are, or the number of row 1 or 2.
fn decode(library: &[u8], log: &[u8], sessions: &[u8], control: &Control) -> Result<system::System, u32> {
    if !right_lengths(library, log, sessions) {
        return Err(1);
    }
    system::System::decode(library, log, sessions, control).ok_or(2)
}

/// Rows 1 and 2, then the call itself, whose system is thrown away.
fn look(library: &[u8], log: &[u8], sessions: &[u8], control: Control, call: impl FnOnce(&mut system::System) -> calls::Ended) -> Answer {
    let ended = decode(library, log, sessions, &control).and_then(|mut system| call(&mut system));
    ended.unwrap_or_else(Outcome::Refused).with(control)
}

/// Rows 1 and 2, then the call itself, then the memory it leaves.
fn play(
    library: &mut [u8],
    log: &mut [u8],
    sessions: &mut [u8],
    control: Control,
    call: impl FnOnce(&mut system::System) -> calls::Ended,
) -> Answer {
    let answer = decode(library, log, sessions, &control).and_then(|mut system| {
        let outcome = call(&mut system)?;
        Ok(outcome.with(system.encode(library, log, sessions)))
    });
    answer.unwrap_or_else(|number| Outcome::Refused(number).with(control))
}
