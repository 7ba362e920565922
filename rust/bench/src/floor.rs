//! The layout test of documents 01 and 02 as fast as we could write it by hand for baseline x86-64 (SSE2): the floor
//! that the engine is held to. It reads every byte once and has no branch on a byte but on the log's links: each test
//! leaves bits that are zero where it holds, and these are joined. The log's records are read in the order of their
//! chains, so that the wait for the next link falls into the form test of the records before.
//!
//! A title's field of n letters is tested by two instructions for 16 bytes: a letter b is right if b − 32 ≤ 94, a byte
//! after the title if b − 0 ≤ 0, both without a sign. The numbers to subtract and to stay below are loaded from tables at
//! an offset that depends on n. Cart numbers of a waiting read are tested the same way in words of 16 bits.

use crate::lanes::Lanes;
use simulator::{CARTS, COMMITS, COPY, Control, LIBRARY, LOG, RECORDS, SESSION_MEMORY, STUDIOS, TRANSACTION_OPERATIONS, UNIT, WINDOW};

type Unit = [u8; UNIT];

const FIELD: usize = 64;

/// `head` for 64 bytes, then zeros for 64.
#[repr(align(64))]
struct Slide([u8; 2 * FIELD]);

const fn slide(head: [u8; 2]) -> Slide {
    let mut bytes = [0; 2 * FIELD];
    let mut i = 0;
    while i < FIELD {
        bytes[i] = head[i % 2];
        i += 1;
    }
    Slide(bytes)
}

static LETTER_FROM: Slide = slide([32, 32]);
static LETTER_SPAN: Slide = slide([126 - 32, 126 - 32]);
static NUMBER_FROM: Slide = slide([1, 0]);
static NUMBER_SPAN: Slide = slide([128 - 1, 0]);

impl Slide {
    /// 16 bytes of a field whose first `head` bytes count, from byte `at`; all of them where `head` is above 64.
    #[inline(always)]
    fn at(&self, head: usize, at: usize) -> Lanes {
        Lanes::load(&self.0, FIELD.saturating_sub(head) + at)
    }
}

#[inline(always)]
fn u16_at(bytes: &[u8], at: usize) -> u32 {
    u32::from(u16::from_le_bytes([bytes[at], bytes[at + 1]]))
}

#[inline(always)]
fn u64_at(bytes: &[u8], at: usize) -> u64 {
    u64::from_le_bytes(bytes[at..at + 8].try_into().expect("8 bytes"))
}

/// What is wrong with a field of n letters, then zeros.
#[inline(always)]
fn title(unit: &Unit, n: u8) -> Lanes {
    let head = usize::from(n);
    let wrong = |at| Lanes::load(unit, 16 + at).outside(LETTER_FROM.at(head, at), LETTER_SPAN.at(head, at));
    (wrong(0) | wrong(16)) | (wrong(32) | wrong(48))
}

/// What is wrong with a field of n cart numbers, then zeros.
#[inline(always)]
fn numbers(unit: &Unit, n: u8) -> Lanes {
    let head = 2 * usize::from(n);
    let wrong = |at| Lanes::load(unit, 16 + at).outside_u16(NUMBER_FROM.at(head, at), NUMBER_SPAN.at(head, at));
    (wrong(0) | wrong(16)) | (wrong(32) | wrong(48))
}

/// Every byte is zero.
#[inline(always)]
fn zeros(bytes: &[u8]) -> bool {
    let mut bits = [Lanes::zero(); 4];
    let mut blocks = bytes.chunks_exact(64);
    for block in &mut blocks {
        for (i, bits) in bits.iter_mut().enumerate() {
            *bits = *bits | Lanes::load(block, 16 * i);
        }
    }
    let rest = blocks.remainder().iter().fold(0, |joined, byte| joined | byte);
    (bits[0] | bits[1] | bits[2] | bits[3]).is_zero() & (rest == 0)
}

/// Each of a copy's carts is empty, or held with its number.
#[inline(always)]
fn copy(bytes: &[u8]) -> bool {
    let mut bits = Lanes::zero();
    let mut ok = true;
    let mut held = 1u32; // the first four bytes of a held cart, its title's length apart
    for unit in bytes.as_chunks::<UNIT>().0 {
        held += 1 << 16;
        let (low, high) = (u64_at(unit, 0), u64_at(unit, 8));
        // Length 1 to 64 and the other three bytes as in `held`; bytes 12 to 15 zero and the milliseconds not.
        let named = ((low as u32) ^ held).rotate_right(8).wrapping_sub(1) < 64;
        let is_held = named & (low >> 32 != 0) & (high.wrapping_sub(1) < 0xffff_ffff);
        ok &= is_held | (low | high == 0);
        bits = bits | title(unit, unit[1]);
    }
    ok & bits.is_zero()
}

/// What is wrong with an operation's title, and whether its other fields are right, bytes 12 to 15 apart.
#[inline(always)]
fn operation(unit: &Unit) -> (Lanes, bool) {
    let (low, high) = (u64_at(unit, 0), u64_at(unit, 8));
    let kind = (low as u32) & 0xff;
    let n = unit[1];
    let has_title = kind <= 2;
    let has_audio = kind & 1 != 0;
    let ok = (kind.wrapping_sub(1) < 4)
        & (((low as u32) >> 16).wrapping_sub(1) < CARTS as u32)
        & (((n != 0) == has_title) & (n <= 64))
        & (((low >> 32 != 0) == has_audio) & ((high as u32 != 0) == has_audio));
    (title(unit, n), ok)
}

/// The record of an index, if there is one that was not met before.
#[inline(always)]
fn meet<'a>(records: &'a [Unit], met: &mut [bool; RECORDS], index: u32) -> Option<&'a Unit> {
    let place = index.wrapping_sub(1) as usize;
    let is_new = !std::mem::replace(met.get_mut(place)?, true);
    records.get(place).filter(|_| is_new)
}

/// The log's chain has the records in use, in the transactions that are not retired; they are met.
#[inline(always)]
fn transactions(records: &[Unit], met: &mut [bool; RECORDS], control: &Control) -> bool {
    let (mut bits, mut ok) = (Lanes::zero(), true);
    let (mut first, mut count, mut used) = (control.oldest, 0, 0);
    while first != 0 {
        let (mut next, mut length) = (first, 0);
        let mut claimed = 0;
        while next != 0 {
            let Some(unit) = meet(records, met, next) else { return false };
            let (letters, is_right) = operation(unit);
            bits = bits | letters;
            let next_transaction = u16_at(unit, 14);
            ok &= is_right & ((length == 0) | (next_transaction == 0));
            claimed |= next_transaction;
            next = u16_at(unit, 12);
            length += 1;
        }
        ok &= length <= TRANSACTION_OPERATIONS;
        (count, used, first) = (count + 1, used + length, claimed);
    }
    ok & bits.is_zero() & (count == control.commits.wrapping_sub(control.retired)) & (used == control.used as usize)
}

/// The free chain has the other records, zero but for their links; they are met.
#[inline(always)]
fn free(records: &[Unit], met: &mut [bool; RECORDS], control: &Control) -> bool {
    let (mut bits, mut ok) = (Lanes::zero(), true);
    let (mut next, mut last, mut count) = (control.free_first, 0, 0);
    while next != 0 {
        let Some(unit) = meet(records, met, next) else { return false };
        let zeros = |at| Lanes::load(unit, at);
        bits = bits | (zeros(16) | zeros(32)) | (zeros(48) | zeros(64));
        ok &= u64_at(unit, 0) | (u64_at(unit, 8) & !(0xffff << 32)) == 0;
        (count, last, next) = (count + 1, next, u16_at(unit, 12));
    }
    ok & bits.is_zero() & (count + control.used as usize == RECORDS) & (last == control.free_last)
}

#[inline(always)]
fn log(bytes: &[u8], control: &Control) -> bool {
    let (records, mut met) = (bytes.as_chunks().0, [false; RECORDS]);
    transactions(records, &mut met, control) && free(records, &mut met, control)
}

#[inline(always)]
fn library(bytes: &[u8], control: &Control) -> bool {
    let mut ok = true;
    for (i, part) in (0..).zip(bytes.as_chunks::<COPY>().0) {
        let is_sixth = i == STUDIOS as u32 + 1;
        let is_there = if is_sixth { control.retired != 0 } else { i <= control.studios };
        ok &= if is_there { copy(part) } else { zeros(part) };
    }
    ok
}

#[inline(always)]
fn session(unit: &Unit, studio: u32, commits: u32) -> bool {
    let (kind, n) = (unit[0], unit[1]);
    let by_title = title(unit, n).is_zero() & (n <= 64) & ((n != 0) == (kind == 2)) & (kind & 1 == 0);
    let by_numbers = numbers(unit, n).is_zero() & (n.wrapping_sub(1) < 32) & (kind == 1);
    let used = (by_title | by_numbers) & (kind <= 2) & (u16_at(unit, 2) <= commits) & (u64_at(unit, 0) >> 32 == 0) & (u64_at(unit, 8) == 0);
    if studio == 0 { zeros(unit) } else { used }
}

#[inline(always)]
fn sessions(bytes: &[u8], control: &Control) -> bool {
    let mut ok = true;
    for (unit, &studio) in bytes.as_chunks::<UNIT>().0.iter().zip(&control.session_studios) {
        ok &= session(unit, studio, control.commits) & (studio <= control.studios);
    }
    ok
}

#[inline(always)]
fn counts(control: &Control) -> bool {
    let mut ok = (1..=STUDIOS as u32).contains(&control.studios) & (control.commits <= COMMITS);
    for (i, (&sent, &applied)) in (0..).zip(control.sent.iter().zip(&control.applied)) {
        let in_order = (control.retired <= applied) & (applied <= sent) & (sent <= control.commits);
        let counted = in_order & (sent.wrapping_sub(applied) <= WINDOW);
        ok &= if i < control.studios { counted } else { sent | applied == 0 };
    }
    ok
}

/// Lengths are right, and control and memory are of the layout.
#[inline(never)]
pub fn is_layout(library_memory: &[u8], log_memory: &[u8], session_memory: &[u8], control: &Control) -> bool {
    let lengths = library_memory.len() == LIBRARY && log_memory.len() == LOG && session_memory.len() == SESSION_MEMORY;
    lengths && (counts(control) & library(library_memory, control) & log(log_memory, control) & sessions(session_memory, control))
}

/// The library's part of the test alone.
#[inline(never)]
pub fn is_library(library_memory: &[u8], control: &Control) -> bool {
    library(library_memory, control)
}

/// The log's part of the test alone.
#[inline(never)]
pub fn is_log(log_memory: &[u8], control: &Control) -> bool {
    log(log_memory, control)
}

/// The sessions' part of the test alone.
#[inline(never)]
pub fn are_sessions(session_memory: &[u8], control: &Control) -> bool {
    sessions(session_memory, control)
}

/// Every byte is zero.
#[inline(never)]
pub fn is_zero(bytes: &[u8]) -> bool {
    zeros(bytes)
}

/// The bytes are those of a copy.
#[inline(never)]
pub fn is_copy(bytes: &[u8]) -> bool {
    bytes.len() == COPY && copy(bytes)
}

/// Each unit is an operation as handed in.
#[inline(never)]
pub fn are_operations(bytes: &[u8]) -> bool {
    let mut bits = Lanes::zero();
    let mut ok = true;
    for unit in bytes.as_chunks::<UNIT>().0 {
        let (letters, is_right) = operation(unit);
        bits = bits | letters;
        ok &= is_right & (u64_at(unit, 8) >> 32 == 0);
    }
    ok & bits.is_zero()
}
