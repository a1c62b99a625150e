// Made from crates/octets/src/pieces.rt by tools/erase: not to be edited.
//! A text that comes in pieces of any length and is absorbed in whole blocks of 16 bytes: the state under Poly1305, GHASH and
//! POLYVAL, with the padding of RFC 8439, 2.8, SP 800-38D, 7.1, and RFC 8452, 4.

use crate::proved::octets::words::{le_bytes, padded};

/// A state that absorbs whole blocks of 16 bytes. It does not depend on how they are split into calls.
pub trait Absorb {
    /// Absorbs any number of whole blocks.
    fn absorb(&mut self, blocks: &[u8]);
}

// The last `count` of 16 bytes, followed by zeros. The bytes are shifted within a word: if they were copied in parts, a read of
// the whole block would wait until every part has reached the cache.
fn last_bytes(bytes: &[u8], count: usize) -> [u8; 16] {
    let mut block = [0; 16];
    block.copy_from_slice(bytes);
    le_bytes(u128::from_le_bytes(block) >> (8 * (16 - count) as u32))
}

/// A text that comes in pieces of any length: the state that absorbed its whole blocks of 16 bytes, and the bytes
/// after them, padded with zeros. Whole blocks are passed on many at a time, and only the two ends of a piece are copied.
pub struct Pieces<A> {
    /// The state that absorbed the whole blocks.
    pub core: A,
    buffer: [u8; 16],
    used: usize,
}

impl<A: Absorb> Pieces<A> {
    /// Makes a state that holds the empty text. `core` has absorbed nothing yet.
    pub fn new(core: A) -> Pieces<A> {
        Pieces::resumed(core, &[])
    }

    /// Makes a state that holds the text whose whole blocks `core` absorbed, and whose bytes after them are `rest`: fewer than
    /// 16.
    pub fn resumed(core: A, rest: &[u8]) -> Pieces<A> {
        let mut buffer = [0; 16];
        buffer[..rest.len()].copy_from_slice(rest);
        Pieces { core, buffer, used: rest.len() }
    }

    /// Returns the bytes of the text after its last whole block: fewer than 16.
    pub fn rest(&self) -> &[u8] {
        &self.buffer[..self.used]
    }

    // Buffers bytes that do not complete a block.
    fn keep(&mut self, bytes: &[u8]) {
        let end = self.used + bytes.len();
        self.buffer[self.used..end].copy_from_slice(bytes);
        self.used = end;
    }

    // Adds the bytes that complete the buffered block.
    fn fill(&mut self, bytes: &[u8]) {
        self.buffer[self.used..16].copy_from_slice(bytes);
        self.core.absorb(&self.buffer);
        self.buffer = [0; 16];
        self.used = 0;
    }

    // Adds bytes while the buffer is empty.
    #[inline(always)]
    fn update_whole(&mut self, bytes: &[u8]) {
        let whole = bytes.len() / 16 * 16;
        if whole == 0 {
            self.buffer = padded(bytes);
            self.used = bytes.len();
            return;
        }
        self.core.absorb(&bytes[..whole]);
        if whole < bytes.len() {
            self.used = bytes.len() - whole;
            self.buffer = last_bytes(&bytes[bytes.len() - 16..], self.used);
        }
    }

    /// Adds `piece`, of any length, to the end of the text.
    pub fn update(&mut self, piece: &[u8]) {
        let mut rest = piece;
        let used = self.used;
        if used > 0 {
            let room = 16 - used;
            if piece.len() < room {
                self.keep(piece);
                return;
            }
            self.fill(&piece[..room]);
            rest = &piece[room..];
        }
        self.update_whole(rest);
    }

    /// Adds the fewest zero bytes that make the length of the text a multiple of 16: none if it already is.
    pub fn pad16(&mut self) {
        if self.used > 0 {
            self.core.absorb(&self.buffer);
            self.buffer = [0; 16];
            self.used = 0;
        }
    }
}
