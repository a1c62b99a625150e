// Made from crates/gf128/src/word_bytes.rt by tools/erase: not to be edited.
//! Words of 128 bits as vectors of bytes: a shift by one byte is one shuffle, where LLVM makes three shifts for a number.

use crate::proved::gf128::placed::Lanes;
use crate::proved::octets::le_bytes;
use crate::simd::{Places, u8x16, u64x2};

// A word as the vector of its bytes, the least significant one first.
#[derive(Clone, Copy)]
pub(in crate::proved::gf128) struct WordBytes {
    pub(in crate::proved::gf128) bytes: u8x16,
}

impl WordBytes {
    // The vector of a word.
    #[inline(always)]
    pub(in crate::proved::gf128) fn of(word: u128) -> WordBytes {
        WordBytes { bytes: u8x16::from_array(le_bytes(word)) }
    }

    // The vector of sixteen bytes.
    #[inline(always)]
    pub(in crate::proved::gf128) fn of_bytes(bytes: [u8; 16]) -> WordBytes {
        WordBytes { bytes: u8x16::from_array(bytes) }
    }

    // The word.
    #[inline(always)]
    pub(in crate::proved::gf128) fn word(self) -> u128 {
        u128::from_le_bytes(self.bytes.to_array())
    }

    // The word moved up by 64 places. What it loses is gone.
    #[inline(always)]
    pub(in crate::proved::gf128) fn half_up(self) -> WordBytes {
        WordBytes {
            bytes: u64x2::from_le_bytes(self.bytes)
                .shuffle(u64x2::splat(0), const { Places::new([2, 0]) })
                .to_le_bytes(),
        }
    }

    // The word shifted down by 64 places.
    #[inline(always)]
    pub(in crate::proved::gf128) fn half_down(self) -> WordBytes {
        WordBytes {
            bytes: u64x2::from_le_bytes(self.bytes)
                .shuffle(u64x2::splat(0), const { Places::new([1, 2]) })
                .to_le_bytes(),
        }
    }

    // The word shifted down by `count` places, fewer than 64: what the upper half loses goes to the lower one.
    #[inline(always)]
    pub(in crate::proved::gf128) fn shifted_down(self, count: u64) -> WordBytes {
        let carried = self.half_down().up(64 - count);
        carried.xor(self.down(count))
    }

    // The word times 1 + x + x^2 + x^7, without what comes to the places below it.
    #[inline(always)]
    pub(in crate::proved::gf128) fn folded(self) -> WordBytes {
        let by_x = self.shifted_down(1);
        let by_x2 = self.shifted_down(2);
        let by_x7 = self.shifted_down(7);
        let two = by_x2.xor(by_x7);
        let three = by_x.xor(two);
        self.xor(three)
    }

    // The word times x^`count` in GHASH's field: the bit of weight 2^127 is the coefficient of x^0, so this shifts down, and what
    // falls out below is folded in. The callers want 1, 2 and 4. It is left to LLVM to inline this: were it always done, the body
    // that makes all tables would be too long to be inlined itself, and the tables would be copied.
    pub(in crate::proved::gf128) fn times_power(self, count: u64) -> WordBytes {
        let out = self.up(64 - count).half_up();
        let fold = out.folded();
        self.shifted_down(count).xor(fold)
    }
}

impl Lanes for WordBytes {
    #[inline(always)]
    fn zero() -> WordBytes {
        WordBytes::of(0)
    }

    #[inline(always)]
    fn xor(self, other: WordBytes) -> WordBytes {
        WordBytes { bytes: self.bytes ^ other.bytes }
    }

    #[inline(always)]
    fn up(self, count: u64) -> WordBytes {
        WordBytes { bytes: (u64x2::from_le_bytes(self.bytes) << u64x2::splat(count)).to_le_bytes() }
    }

    #[inline(always)]
    fn down(self, count: u64) -> WordBytes {
        WordBytes { bytes: (u64x2::from_le_bytes(self.bytes) >> u64x2::splat(count)).to_le_bytes() }
    }

    #[inline(always)]
    fn sum(self) -> WordBytes {
        self
    }
}
