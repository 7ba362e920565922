//! The bytes of operations, requests and messages.

use simulator::UNIT;

/// A title of a length: letters that all carts share, but for the number at its end.
pub fn title(cart: usize, length: usize) -> Vec<u8> {
    let number = format!("{cart:03}");
    let mut letters = b"Sponsor's jingle for the breakfast show, long version with outro ".to_vec();
    letters.truncate(length - number.len());
    letters.extend(number.bytes());
    letters
}

fn unit(kind: u8, cart: usize, audio: u32, letters: &[u8]) -> [u8; UNIT] {
    let mut unit = [0; UNIT];
    unit[0] = kind;
    unit[1] = letters.len() as u8;
    unit[2..4].copy_from_slice(&(cart as u16).to_le_bytes());
    unit[4..8].copy_from_slice(&audio.to_le_bytes());
    unit[8..12].copy_from_slice(&(audio * 8).to_le_bytes());
    unit[16..16 + letters.len()].copy_from_slice(letters);
    unit
}

pub fn new(cart: usize, letters: &[u8]) -> [u8; UNIT] {
    unit(1, cart, 500 + cart as u32, letters)
}

pub fn retitle(cart: usize, letters: &[u8]) -> [u8; UNIT] {
    unit(2, cart, 0, letters)
}

pub fn recut(cart: usize, audio: u32) -> [u8; UNIT] {
    unit(3, cart, audio, &[])
}

pub fn withdraw(cart: usize) -> [u8; UNIT] {
    unit(4, cart, 0, &[])
}

pub fn by_numbers(count: usize) -> [u8; UNIT] {
    let mut request = unit(1, 0, 0, &[]);
    request[1] = count as u8;
    for (i, place) in request[16..].chunks_exact_mut(2).take(count).enumerate() {
        place[0] = (i * 37 % 128 + 1) as u8;
    }
    request
}

pub fn by_title(letters: &[u8]) -> [u8; UNIT] {
    unit(2, 0, 0, letters)
}

/// The message of a transaction.
pub fn message(number: u16, operations: &[[u8; UNIT]]) -> Vec<u8> {
    let head = [number.to_le_bytes(), [operations.len() as u8, 0]].concat();
    [head, operations.concat()].concat()
}
