//! The sizes of the memories, and how many there are of everything.

/// Bytes of library memory: six copies, the head end's, those of studios 1 to 4, and what is retired.
pub const LIBRARY: usize = 61_440;
/// Bytes of log memory: 512 records.
pub const LOG: usize = 40_960;
/// Bytes of session memory: 16 sessions.
pub const SESSIONS: usize = 1_280;
/// Bytes of one copy of the library: 128 carts.
pub const COPY: usize = 10_240;
/// Bytes of a cart, an operation, a request, a record or a session.
pub const CART: usize = 80;
/// Bytes of output that are long enough for every read.
pub const OUTPUT_MOST: usize = CART * NUMBERS;
/// Bytes of a message that stand before its operations.
pub const MESSAGE_HEAD: usize = 4;
/// Bytes of the longest message: output of this size is long enough for every one.
pub const MESSAGE_MOST: usize = MESSAGE_HEAD + CART * OPERATIONS;
/// Bytes of a wall file of the thirty-two-character edition.
pub const OLD_FILE: usize = 6_150;
/// Carts, numbered from 1.
pub const CARTS: usize = 128;
/// Studios at most, numbered from 1.
pub const STUDIOS: usize = 4;
/// Sessions, numbered from 1.
pub const SESSION_COUNT: usize = 16;
/// Letters of a title at most.
pub const TITLE: usize = 64;
/// Letters of a title at most in a wall file of the thirty-two-character edition.
pub const OLD_TITLE: usize = 32;
/// Operations of a commit at most.
pub const OPERATIONS: usize = 8;
/// Cart numbers of a read at most.
pub const NUMBERS: usize = 32;
/// Operations that the log holds; retired ones make room.
pub const RECORDS: usize = 512;
/// Transactions that can ever be committed.
pub const COMMITS: usize = 65_535;
/// Transactions that can be sent to a studio and not yet applied there.
pub const WINDOW: usize = 32;
