//! The calls of libsulyobak.a, as `include/sulyobak.h` declares them: functions, structs, numbers and sizes, with no code of its own.
//! The header says what each call does and what remains the caller's; the crate `sulyobak` is a safe wrapper.
#![no_std]

pub mod sizes;

/// The version of the interface that these declarations are for: `SULYOBAK_VERSION`.
pub const VERSION: u32 = 9;

/// The counts of a system. The engine is passed them and hands them back; any value may stand in any field, and each has its answer.
///
/// Its fields belong to the version of the interface ([`VERSION`]): store both together.
#[repr(C)]
#[derive(Clone, Copy, Debug, Default, PartialEq, Eq, Hash)]
pub struct Control {
    /// How many studios, 1 to 4.
    pub studios: u32,
    /// The studio at which each session is; 0 for a session that is not in use.
    pub session_studios: [u32; sizes::SESSION_COUNT],
    /// Records of the log that hold operations, up to 512; the others are free.
    pub used: u32,
    /// Transactions committed, retired ones included, up to 65,535.
    pub commits: u32,
    /// For each studio, how many transactions were sent to it.
    pub sent: [u32; sizes::STUDIOS],
    /// For each studio, how many of these its copy has taken.
    pub applied: [u32; sizes::STUDIOS],
    /// Transactions retired: the first ones, no longer in the log; the sixth copy is what they made.
    pub retired: u32,
    /// First record of the oldest transaction that is in the log; 0 for none.
    pub oldest: u32,
    /// First record of the chain of free ones; 0 for none.
    pub free_first: u32,
    /// Last record of that chain; 0 for none.
    pub free_last: u32,
}

/// What a call answers. Words that have no meaning for the kind are 0.
#[repr(C)]
#[derive(Clone, Copy, Debug, PartialEq, Eq)]
pub struct Answer {
    /// [`REFUSED`], [`DONE`], [`ANSWERED`] or [`WAITS`].
    pub kind: u32,
    /// Refused: the number; done: what the call counts; answered: the state; waits: the session's number.
    pub value: u32,
    /// Answered: how many carts were found.
    pub found: u32,
    /// Control for the next call; all zero from [`sulyobak_from_old`] and [`sulyobak_to_old`], which are passed none.
    pub control: Control,
}

/// What [`sulyobak_van_receive`] answers.
#[repr(C)]
#[derive(Clone, Copy, Debug, PartialEq, Eq)]
pub struct VanAnswer {
    /// [`REFUSED`], [`DONE`] (the message is applied) or [`HELD`].
    pub kind: u32,
    /// Refused: the number; done and held: the message's number.
    pub value: u32,
    /// Applied for the next call.
    pub applied: u32,
}

// The structs of the header have 31, 34 and 3 words.
const _: () = assert!(core::mem::size_of::<Control>() == 31 * 4 && core::mem::size_of::<Answer>() == 34 * 4);
const _: () = assert!(core::mem::size_of::<VanAnswer>() == 3 * 4);

/// Nothing was done, and no byte was changed (but a session's number, by a commit refused by 8).
pub const REFUSED: u32 = 0;
/// Done.
pub const DONE: u32 = 1;
/// The read or forward is answered; the carts are in output.
pub const ANSWERED: u32 = 2;
/// The read is kept in the session.
pub const WAITS: u32 = 3;
/// The van holds the message's transaction already; nothing was changed.
pub const HELD: u32 = 4;

extern "C" {
    /// The version of the linked engine: [`VERSION`] of the interface that it was made for.
    pub fn sulyobak_version() -> u32;

    /// Sets up a fresh system.
    pub fn sulyobak_setup(
        library: *mut u8,
        library_len: usize,
        log: *mut u8,
        log_len: usize,
        sessions: *mut u8,
        sessions_len: usize,
        studios: u32,
        session_studios: *const u8,
        session_studios_len: usize,
    ) -> Answer;

    /// Commits a transaction at the head end. Refused by 8, it raises its session's number.
    pub fn sulyobak_commit(
        library: *mut u8,
        library_len: usize,
        log: *mut u8,
        log_len: usize,
        sessions: *mut u8,
        sessions_len: usize,
        control: Control,
        session: u32,
        operations: *const u8,
        operations_len: usize,
    ) -> Answer;

    /// Answers what a commit would answer, and changes nothing.
    pub fn sulyobak_preview(
        library: *const u8,
        library_len: usize,
        log: *const u8,
        log_len: usize,
        sessions: *const u8,
        sessions_len: usize,
        control: Control,
        session: u32,
        operations: *const u8,
        operations_len: usize,
    ) -> Answer;

    /// Counts the next committed transaction as sent to a studio.
    pub fn sulyobak_send(
        library: *const u8,
        library_len: usize,
        log: *const u8,
        log_len: usize,
        sessions: *const u8,
        sessions_len: usize,
        control: Control,
        studio: u32,
    ) -> Answer;

    /// Applies the next transaction that was sent to a studio to its copy.
    pub fn sulyobak_refresh(
        library: *mut u8,
        library_len: usize,
        log: *const u8,
        log_len: usize,
        sessions: *const u8,
        sessions_len: usize,
        control: Control,
        studio: u32,
    ) -> Answer;

    /// Reads carts from the copy of the session's studio, or waits.
    pub fn sulyobak_read(
        library: *const u8,
        library_len: usize,
        log: *const u8,
        log_len: usize,
        sessions: *mut u8,
        sessions_len: usize,
        control: Control,
        session: u32,
        request: *const u8,
        request_len: usize,
        output: *mut u8,
        output_len: usize,
    ) -> Answer;

    /// Collects the read that a session has waiting.
    pub fn sulyobak_collect(
        library: *const u8,
        library_len: usize,
        log: *const u8,
        log_len: usize,
        sessions: *mut u8,
        sessions_len: usize,
        control: Control,
        session: u32,
        output: *mut u8,
        output_len: usize,
    ) -> Answer;

    /// Reads carts from the copy of the session's studio, or from the head end's where the studio's is behind; never waits.
    pub fn sulyobak_forward(
        library: *const u8,
        library_len: usize,
        log: *const u8,
        log_len: usize,
        sessions: *mut u8,
        sessions_len: usize,
        control: Control,
        session: u32,
        request: *const u8,
        request_len: usize,
        output: *mut u8,
        output_len: usize,
    ) -> Answer;

    /// Moves a session to another studio.
    pub fn sulyobak_move(
        library: *const u8,
        library_len: usize,
        log: *const u8,
        log_len: usize,
        sessions: *const u8,
        sessions_len: usize,
        control: Control,
        session: u32,
        studio: u32,
    ) -> Answer;

    /// Tests memory and control alone.
    pub fn sulyobak_layout(
        library: *const u8,
        library_len: usize,
        log: *const u8,
        log_len: usize,
        sessions: *const u8,
        sessions_len: usize,
        control: Control,
    ) -> Answer;

    /// Loads a system that was saved: tests memory and control, and that the copies are what the log makes.
    pub fn sulyobak_load(
        library: *const u8,
        library_len: usize,
        log: *const u8,
        log_len: usize,
        sessions: *const u8,
        sessions_len: usize,
        control: Control,
    ) -> Answer;

    /// Retires the oldest transaction of the log, which every studio has applied: its records are free again.
    pub fn sulyobak_retire(
        library: *mut u8,
        library_len: usize,
        log: *mut u8,
        log_len: usize,
        sessions: *const u8,
        sessions_len: usize,
        control: Control,
    ) -> Answer;

    /// Writes the message of a committed transaction that is not retired, for a van.
    pub fn sulyobak_van_write(
        library: *const u8,
        library_len: usize,
        log: *const u8,
        log_len: usize,
        sessions: *const u8,
        sessions_len: usize,
        control: Control,
        number: u32,
        output: *mut u8,
        output_len: usize,
    ) -> Answer;

    /// Receives a message in the van: applies it to the van's copy where it is the next one.
    pub fn sulyobak_van_receive(copy: *mut u8, copy_len: usize, applied: u32, message: *const u8, message_len: usize) -> VanAnswer;

    /// Converts a wall file of the thirty-two-character edition to one copy.
    pub fn sulyobak_from_old(file: *const u8, file_len: usize, copy: *mut u8, copy_len: usize) -> Answer;

    /// Converts one copy to such a file, where every title has room there.
    pub fn sulyobak_to_old(copy: *const u8, copy_len: usize, file: *mut u8, file_len: usize) -> Answer;
}
