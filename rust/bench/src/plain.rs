//! The lower crate's scans as one writes them in Rust: a loop that ends at the first byte out of its rule.

use simulator::{CARTS, COPY, UNIT};

fn u16_at(bytes: &[u8], at: usize) -> usize {
    usize::from(u16::from_le_bytes([bytes[at], bytes[at + 1]]))
}

fn u32_at(bytes: &[u8], at: usize) -> u32 {
    u32::from_le_bytes([bytes[at], bytes[at + 1], bytes[at + 2], bytes[at + 3]])
}

fn is_title(unit: &[u8]) -> bool {
    let n = usize::from(unit[1]);
    (1..=64).contains(&n) && unit[16..16 + n].iter().all(|byte| (32..=126).contains(byte)) && is_zero(&unit[16 + n..])
}

fn is_audio(unit: &[u8]) -> bool {
    u32_at(unit, 4) >= 1 && u32_at(unit, 8) >= 1
}

fn is_cart(unit: &[u8], number: usize) -> bool {
    let held = unit[0] == 1 && u16_at(unit, 2) == number && is_audio(unit) && is_zero(&unit[12..16]) && is_title(unit);
    held || is_zero(unit)
}

fn is_operation(unit: &[u8]) -> bool {
    let kind = unit[0];
    let title = if matches!(kind, 1 | 2) { is_title(unit) } else { unit[1] == 0 && is_zero(&unit[16..]) };
    let audio = if matches!(kind, 1 | 3) { is_audio(unit) } else { is_zero(&unit[4..12]) };
    (1..=4).contains(&kind) && (1..=CARTS).contains(&u16_at(unit, 2)) && title && audio && is_zero(&unit[12..16])
}

/// Every byte is zero.
#[inline(never)]
pub fn is_zero(bytes: &[u8]) -> bool {
    bytes.iter().all(|byte| *byte == 0)
}

/// The bytes are those of a copy.
#[inline(never)]
pub fn is_copy(bytes: &[u8]) -> bool {
    bytes.len() == COPY && (1..).zip(bytes.chunks_exact(UNIT)).all(|(number, unit)| is_cart(unit, number))
}

/// Each unit is an operation as handed in.
#[inline(never)]
pub fn are_operations(bytes: &[u8]) -> bool {
    bytes.chunks_exact(UNIT).all(is_operation)
}
