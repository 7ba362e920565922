//! Sizes, and how many there are of everything.

/// Bytes of a cart, a record, a session, an operation and a request.
pub const UNIT: usize = 80;
/// Carts of a copy.
pub const CARTS: usize = 128;
/// Bytes of a copy.
pub const COPY: usize = CARTS * UNIT;
/// Bytes that an old file begins with.
pub const OLD_MARK: usize = 6;
/// Bytes of a cart in an old file.
pub const OLD_UNIT: usize = 48;
/// Most letters of a title in an old file.
pub const OLD_TITLE: usize = 32;
/// Bytes of an old file.
pub const OLD_FILE: usize = OLD_MARK + CARTS * OLD_UNIT;
/// Most studios.
pub const STUDIOS: usize = 4;
/// Records of the log.
pub const RECORDS: usize = 512;
/// Sessions.
pub const SESSIONS: usize = 16;
/// Bytes of library memory: the head end's copy, the studios' and the sixth.
pub const LIBRARY: usize = (1 + STUDIOS + 1) * COPY;
/// Bytes of log memory.
pub const LOG: usize = RECORDS * UNIT;
/// Bytes of session memory.
pub const SESSION_MEMORY: usize = SESSIONS * UNIT;
/// Most operations of one transaction.
pub const TRANSACTION_OPERATIONS: usize = 8;
/// Most numbers of one read.
pub const NUMBERS: usize = 32;
/// Most transactions committed, retired ones included.
pub const COMMITS: u32 = 65_535;
/// Most transactions sent and not applied.
pub const WINDOW: u32 = 32;
