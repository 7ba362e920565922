use crate::answer::Refusal;
use std::fmt;
use sulyobak_sys::sizes;

/// The message of a transaction for a [`Van`](crate::Van), as [`Library::van_write`](crate::Library::van_write) wrote it: 84 to 644 bytes.
#[derive(Clone, PartialEq, Eq, Hash)]
pub struct Message {
    // Zeros follow the message, so that equal messages are equal here.
    bytes: [u8; sizes::MESSAGE_MOST],
    length: usize,
}

impl Message {
    // What a writer leaves, which is lent output and gives the message's length.
    pub(crate) fn written(write: impl FnOnce(&mut [u8]) -> Result<usize, Refusal>) -> Result<Message, Refusal> {
        let mut bytes = [0; sizes::MESSAGE_MOST];
        let length = write(&mut bytes)?;
        Ok(Message { bytes, length })
    }

    /// Its bytes, to be sent whole.
    pub fn as_bytes(&self) -> &[u8] {
        &self.bytes[..self.length]
    }

    /// The number of its transaction.
    pub fn number(&self) -> u32 {
        u32::from(u16::from_le_bytes([self.bytes[0], self.bytes[1]]))
    }

    /// How many operations it has, 1 to 8.
    pub fn count(&self) -> usize {
        usize::from(self.bytes[2])
    }
}

impl fmt::Debug for Message {
    fn fmt(&self, f: &mut fmt::Formatter<'_>) -> fmt::Result {
        f.debug_struct("Message").field("number", &self.number()).field("count", &self.count()).finish()
    }
}
