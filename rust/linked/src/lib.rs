//! The linked engine, with the simulator's functions and values: so that the comparison and the benchmark play both in the same words.

pub mod carts;

use simulator::{Answer, Control, VanAnswer};
use sulyobak_sys as sys;

#[inline]
fn passed(control: Control) -> sys::Control {
    let Control { studios, session_studios, used, commits, sent, applied, retired, oldest, free_first, free_last } = control;
    sys::Control { studios, session_studios, used, commits, sent, applied, retired, oldest, free_first, free_last }
}

#[inline]
fn handed_back(answer: sys::Answer) -> Answer {
    let sys::Answer { kind, value, found, control } = answer;
    let sys::Control { studios, session_studios, used, commits, sent, applied, retired, oldest, free_first, free_last } = control;
    let control = Control { studios, session_studios, used, commits, sent, applied, retired, oldest, free_first, free_last };
    Answer { kind, value, found, control }
}

// Calls an exported function with the three memories, and then the given arguments.
macro_rules! call {
    ($function:ident, $library:ident, $log:ident, $sessions:ident $(, $argument:expr)*) => {{
        let (library, log, sessions) = ($library.as_mut_ptr(), $log.as_mut_ptr(), $sessions.as_mut_ptr());
        // SAFETY: each pointer comes with its length from one slice that is borrowed for the whole call; what is written is borrowed
        // mutably, so that the slices are apart from each other and nobody else uses them.
        handed_back(unsafe { sys::$function(library, $library.len(), log, $log.len(), sessions, $sessions.len(), $($argument),*) })
    }};
}

/// Setup.
#[inline]
pub fn setup(library: &mut [u8], log: &mut [u8], sessions: &mut [u8], studios: u32, session_studios: &[u8]) -> Answer {
    call!(sulyobak_setup, library, log, sessions, studios, session_studios.as_ptr(), session_studios.len())
}

/// Commit.
#[inline]
pub fn commit(library: &mut [u8], log: &mut [u8], sessions: &mut [u8], control: Control, session: u32, operations: &[u8]) -> Answer {
    call!(sulyobak_commit, library, log, sessions, passed(control), session, operations.as_ptr(), operations.len())
}

/// Preview.
#[inline]
pub fn preview(library: &mut [u8], log: &mut [u8], sessions: &mut [u8], control: Control, session: u32, operations: &[u8]) -> Answer {
    call!(sulyobak_preview, library, log, sessions, passed(control), session, operations.as_ptr(), operations.len())
}

/// Send.
#[inline]
pub fn send(library: &mut [u8], log: &mut [u8], sessions: &mut [u8], control: Control, studio: u32) -> Answer {
    call!(sulyobak_send, library, log, sessions, passed(control), studio)
}

/// Refresh.
#[inline]
pub fn refresh(library: &mut [u8], log: &mut [u8], sessions: &mut [u8], control: Control, studio: u32) -> Answer {
    call!(sulyobak_refresh, library, log, sessions, passed(control), studio)
}

/// Read.
#[inline]
pub fn read(
    library: &mut [u8],
    log: &mut [u8],
    sessions: &mut [u8],
    control: Control,
    session: u32,
    request: &[u8],
    output: &mut [u8],
) -> Answer {
    let (asked, shown) = ((request.as_ptr(), request.len()), (output.as_mut_ptr(), output.len()));
    call!(sulyobak_read, library, log, sessions, passed(control), session, asked.0, asked.1, shown.0, shown.1)
}

/// Collect.
#[inline]
pub fn collect(library: &mut [u8], log: &mut [u8], sessions: &mut [u8], control: Control, session: u32, output: &mut [u8]) -> Answer {
    call!(sulyobak_collect, library, log, sessions, passed(control), session, output.as_mut_ptr(), output.len())
}

/// Forward.
#[inline]
pub fn forward(
    library: &mut [u8],
    log: &mut [u8],
    sessions: &mut [u8],
    control: Control,
    session: u32,
    request: &[u8],
    output: &mut [u8],
) -> Answer {
    let (asked, shown) = ((request.as_ptr(), request.len()), (output.as_mut_ptr(), output.len()));
    call!(sulyobak_forward, library, log, sessions, passed(control), session, asked.0, asked.1, shown.0, shown.1)
}

/// Move.
#[inline]
pub fn move_session(library: &mut [u8], log: &mut [u8], sessions: &mut [u8], control: Control, session: u32, studio: u32) -> Answer {
    call!(sulyobak_move, library, log, sessions, passed(control), session, studio)
}

/// Load.
#[inline]
pub fn load(library: &mut [u8], log: &mut [u8], sessions: &mut [u8], control: Control) -> Answer {
    call!(sulyobak_load, library, log, sessions, passed(control))
}

/// Retire.
#[inline]
pub fn retire(library: &mut [u8], log: &mut [u8], sessions: &mut [u8], control: Control) -> Answer {
    call!(sulyobak_retire, library, log, sessions, passed(control))
}

/// The layout test alone.
#[inline]
pub fn layout(library: &mut [u8], log: &mut [u8], sessions: &mut [u8], control: Control) -> Answer {
    call!(sulyobak_layout, library, log, sessions, passed(control))
}

/// The van's writer.
#[inline]
pub fn van_write(library: &mut [u8], log: &mut [u8], sessions: &mut [u8], control: Control, number: u32, output: &mut [u8]) -> Answer {
    call!(sulyobak_van_write, library, log, sessions, passed(control), number, output.as_mut_ptr(), output.len())
}

/// The van's receiver.
#[inline]
pub fn van_receive(copy: &mut [u8], applied: u32, message: &[u8]) -> VanAnswer {
    let (lent, received) = ((copy.as_mut_ptr(), copy.len()), (message.as_ptr(), message.len()));
    // SAFETY: each pointer comes with its length from one slice that is borrowed for the whole call; the copy is borrowed mutably, so that
    // it is apart from the message and nobody else uses it.
    let answer = unsafe { sys::sulyobak_van_receive(lent.0, lent.1, applied, received.0, received.1) };
    let sys::VanAnswer { kind, value, applied } = answer;
    VanAnswer { kind, value, applied }
}

/// From an old file to one copy of ours.
#[inline]
pub fn from_old(file: &[u8], copy: &mut [u8]) -> Answer {
    let (read, written) = ((file.as_ptr(), file.len()), (copy.as_mut_ptr(), copy.len()));
    // SAFETY: each pointer comes with its length from one slice that is borrowed for the whole call; the copy is borrowed mutably, so that
    // it is apart from the file and nobody else uses it.
    handed_back(unsafe { sys::sulyobak_from_old(read.0, read.1, written.0, written.1) })
}

/// From one copy of ours to an old file.
#[inline]
pub fn to_old(copy: &[u8], file: &mut [u8]) -> Answer {
    let (read, written) = ((copy.as_ptr(), copy.len()), (file.as_mut_ptr(), file.len()));
    // SAFETY: as above; the file is borrowed mutably.
    handed_back(unsafe { sys::sulyobak_to_old(read.0, read.1, written.0, written.1) })
}
