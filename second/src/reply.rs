//! The reply that waits to be read.

/// The longest replies, those of the housekeeping commands.
pub const LONGEST: usize = 258;

/// The fields every reply starts with.
pub const HEAD: usize = 5;

#[derive(Clone, Debug)]
pub struct Reply {
    /// The reserved byte behind the head is never written, so it stays 0.
    bytes: [u8; LONGEST],
    /// 0 when none waits.
    length: usize,
}

impl Reply {
    /// No reply waits.
    pub const fn none() -> Reply {
        Reply { bytes: [0; LONGEST], length: 0 }
    }

    /// Drops the reply that waits.
    pub fn discard(&mut self) {
        self.length = 0;
    }

    /// The bytes of the reply that waits.
    pub fn bytes(&self) -> &[u8] {
        &self.bytes[..self.length]
    }

    /// Puts the head in place; the reply has this many bytes and waits.
    pub fn finish(&mut self, head: [u8; HEAD], length: usize) {
        self.bytes[..HEAD].copy_from_slice(&head);
        self.length = length;
    }

    /// Puts bytes in their place.
    pub fn put(&mut self, at: usize, bytes: &[u8]) {
        self.bytes[at..at + bytes.len()].copy_from_slice(bytes);
    }

    /// Puts a word in its place, low byte first.
    pub fn put_word(&mut self, at: usize, word: u16) {
        self.put(at, &word.to_le_bytes());
    }

    /// A channel set is two words, channels 0 to 15 first.
    pub fn put_channels(&mut self, at: usize, set: u32) {
        self.put(at, &set.to_le_bytes());
    }
}
