//! Lent slices between guard bytes.

use simulator::{LIBRARY, LOG, SESSION_MEMORY};

/// Odd, so that a slice has no kind alignment to rely on.
pub const GUARD: usize = 67;

fn guard_byte(at: usize) -> u8 {
    0xA5 ^ (at as u8).wrapping_mul(29)
}

/// One slice with guard bytes on both sides.
#[derive(Clone)]
pub struct Part {
    bytes: Vec<u8>,
}

impl Part {
    pub fn new(content: &[u8]) -> Part {
        let mut part = Part { bytes: Vec::new() };
        part.set(content);
        part
    }

    /// New content, and whole guards around it.
    pub fn set(&mut self, content: &[u8]) {
        self.bytes.clear();
        self.bytes.extend((0..GUARD).map(guard_byte));
        self.bytes.extend_from_slice(content);
        self.bytes.extend((0..GUARD).map(guard_byte));
    }

    pub fn copy_from(&mut self, other: &Part) {
        self.bytes.clone_from(&other.bytes);
    }

    pub fn len(&self) -> usize {
        self.bytes.len() - 2 * GUARD
    }

    pub fn lent(&self) -> &[u8] {
        &self.bytes[GUARD..self.bytes.len() - GUARD]
    }

    pub fn lent_mut(&mut self) -> &mut [u8] {
        let end = self.bytes.len() - GUARD;
        &mut self.bytes[GUARD..end]
    }

    /// The byte `at`, zero past the end.
    pub fn byte(&self, at: usize) -> u8 {
        self.lent().get(at).copied().unwrap_or(0)
    }

    /// The first byte that differs, counted from the slice's start.
    pub fn first_difference(&self, other: &Part) -> Option<isize> {
        if self.bytes == other.bytes {
            return None;
        }
        let at = self.bytes.iter().zip(&other.bytes).position(|(a, b)| a != b);
        let at = at.unwrap_or(self.bytes.len().min(other.bytes.len()));
        Some(at as isize - GUARD as isize)
    }

    /// The byte at a place that `first_difference` gave.
    pub fn at(&self, place: isize) -> u8 {
        self.bytes[(place + GUARD as isize) as usize]
    }

    /// Writes a byte anywhere, also into a guard: for wrong engines.
    pub fn trespass(&mut self, place: isize, byte: u8) {
        self.bytes[(place + GUARD as isize) as usize] = byte;
    }
}

/// Everything that a call lends: the three memories, the const input
/// (operations, request or studio bytes) and the output.
#[derive(Clone)]
pub struct Lent {
    pub library: Part,
    pub log: Part,
    pub sessions: Part,
    pub input: Part,
    pub output: Part,
}

impl Lent {
    pub fn zeros() -> Lent {
        Lent {
            library: Part::new(&[0; LIBRARY]),
            log: Part::new(&[0; LOG]),
            sessions: Part::new(&[0; SESSION_MEMORY]),
            input: Part::new(&[]),
            output: Part::new(&[]),
        }
    }

    pub fn copy_from(&mut self, other: &Lent) {
        self.library.copy_from(&other.library);
        self.log.copy_from(&other.log);
        self.sessions.copy_from(&other.sessions);
        self.input.copy_from(&other.input);
        self.output.copy_from(&other.output);
    }

    pub fn right_lengths(&self) -> bool {
        let lengths = (self.library.len(), self.log.len(), self.sessions.len());
        lengths == (LIBRARY, LOG, SESSION_MEMORY)
    }
}
