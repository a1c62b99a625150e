// Made from crates/chacha/src/start.rt by tools/erase: not to be edited.
//! The first blocks of a key stream (RFC 8439, 2.4), computed at once: a type for each number of blocks.

use crate::proved::chacha::row_beside::xor_five_blocks;
use crate::proved::chacha::rows::{put_three_sets, put_two_blocks, put_two_sets};
use crate::proved::chacha::runs::xor_runs;
use crate::proved::octets::{Idle, Key32, Nonce, Work, wide};
use crate::simd::{u32x4, u32x8};

/// The first blocks of a key stream, from counter 0 on (RFC 8439, 2.4).
// A type for each number of blocks, so that a short text clears and copies no more bytes than it needs.
pub trait KeyStreamStart: Sized {
    /// Returns zeros, which [`KeyStreamStart::set`] replaces.
    fn zeros() -> Self;

    /// Computes the first blocks of the key stream, in place, since blocks that are returned are copied. As for
    /// [`crate::proved::chacha::ChaStream::new`], a nonce must never be used twice under one key. AEAD_CHACHA20_POLY1305 takes its one-time key
    /// from the first 32 bytes (2.6), which must not mask a text.
    #[inline(always)]
    fn set(&mut self, key: &Key32, nonce: &Nonce) {
        self.set_from(key, 0, nonce, &mut Idle::new());
    }

    /// Computes the blocks from a counter on in place of the first ones, and offers places for steps of other work. The caller shows
    /// that eight blocks from this counter on exist.
    fn set_from<W: Work>(&mut self, key: &Key32, counter: u32, nonce: &Nonce, work: &mut W);

    /// Returns the bytes of the blocks: 64 for each of two to eight.
    fn blocks(&self) -> &[u8];
}

/// The two blocks with the counters 0 and 1.
pub struct TwoBlocks {
    bytes: [u8; 128],
}

impl KeyStreamStart for TwoBlocks {
    fn zeros() -> TwoBlocks {
        TwoBlocks { bytes: [0; 128] }
    }

    #[inline(always)]
    fn set_from<W: Work>(&mut self, key: &Key32, counter: u32, nonce: &Nonce, work: &mut W) {
        put_two_blocks(key, counter, nonce, &mut self.bytes, work);
    }

    fn blocks(&self) -> &[u8] {
        &self.bytes
    }
}

/// The three blocks with the counters 0 to 2.
pub struct ThreeBlocks {
    bytes: [u8; 192],
}

impl KeyStreamStart for ThreeBlocks {
    fn zeros() -> ThreeBlocks {
        ThreeBlocks { bytes: [0; 192] }
    }

    #[inline(always)]
    fn set_from<W: Work>(&mut self, key: &Key32, counter: u32, nonce: &Nonce, work: &mut W) {
        put_three_sets::<[u32x4; 4], W>(key, counter, nonce, &mut self.bytes, work);
    }

    fn blocks(&self) -> &[u8] {
        &self.bytes
    }
}

/// The four blocks with the counters 0 to 3.
pub struct FourBlocks {
    bytes: [u8; 256],
}

impl KeyStreamStart for FourBlocks {
    fn zeros() -> FourBlocks {
        FourBlocks { bytes: [0; 256] }
    }

    #[inline(always)]
    fn set_from<W: Work>(&mut self, key: &Key32, counter: u32, nonce: &Nonce, work: &mut W) {
        if wide() {
            put_two_sets::<[u32x8; 4], W>(key, counter, nonce, &mut self.bytes, work);
        } else {
            self.bytes = [0; 256];
            xor_runs::<[u32x4; 16], W>(key, counter, nonce, &mut self.bytes, work);
        }
    }

    fn blocks(&self) -> &[u8] {
        &self.bytes
    }
}

/// The five blocks with the counters 0 to 4.
pub struct FiveBlocks {
    bytes: [u8; 320],
}

impl KeyStreamStart for FiveBlocks {
    fn zeros() -> FiveBlocks {
        FiveBlocks { bytes: [0; 320] }
    }

    #[inline(always)]
    fn set_from<W: Work>(&mut self, key: &Key32, counter: u32, nonce: &Nonce, work: &mut W) {
        self.bytes = [0; 320];
        xor_five_blocks(key, counter, nonce, &mut self.bytes, work);
    }

    fn blocks(&self) -> &[u8] {
        &self.bytes
    }
}

/// The six blocks with the counters 0 to 5.
pub struct SixBlocks {
    bytes: [u8; 384],
}

impl KeyStreamStart for SixBlocks {
    fn zeros() -> SixBlocks {
        SixBlocks { bytes: [0; 384] }
    }

    #[inline(always)]
    fn set_from<W: Work>(&mut self, key: &Key32, counter: u32, nonce: &Nonce, work: &mut W) {
        put_three_sets::<[u32x8; 4], W>(key, counter, nonce, &mut self.bytes, work);
    }

    fn blocks(&self) -> &[u8] {
        &self.bytes
    }
}

/// The eight blocks with the counters 0 to 7.
pub struct EightBlocks {
    bytes: [u8; 512],
}

impl KeyStreamStart for EightBlocks {
    fn zeros() -> EightBlocks {
        EightBlocks { bytes: [0; 512] }
    }

    #[inline(always)]
    fn set_from<W: Work>(&mut self, key: &Key32, counter: u32, nonce: &Nonce, work: &mut W) {
        self.bytes = [0; 512];
        xor_runs::<[u32x8; 16], W>(key, counter, nonce, &mut self.bytes, work);
    }

    fn blocks(&self) -> &[u8] {
        &self.bytes
    }
}
