//! The memory that the calls are lent.

use simulator::{LIBRARY, LOG, SESSION_MEMORY};

/// The three memories, each at the start of a cache line.
#[repr(C, align(64))]
#[derive(Clone)]
pub struct Memory {
    pub library: [u8; LIBRARY],
    pub log: [u8; LOG],
    pub sessions: [u8; SESSION_MEMORY],
}

impl Memory {
    pub fn parts(&mut self) -> [&mut [u8]; 3] {
        [&mut self.library, &mut self.log, &mut self.sessions]
    }
}
