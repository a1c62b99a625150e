// Made from crates/gf128/src/word_pairs.rt by tools/erase: not to be edited.
//! Two words of 128 bits in a vector of 32 bytes. What counts is their XOR, so that a vector needs to be halved only once.

use crate::proved::gf128::placed::Lanes;
use crate::proved::gf128::word_bytes::WordBytes;
use crate::simd::{Places, u8x16, u8x32, u64x4};

// Two vectors of 16 bytes as one of 32.
#[inline(always)]
fn joined(first: u8x16, second: u8x16) -> u8x32 {
    first.shuffle(
        second,
        const {
            Places::new([
                0, 1, 2, 3, 4, 5, 6, 7, 8, 9, 10, 11, 12, 13, 14, 15, 16, 17, 18, 19, 20, 21, 22, 23, 24, 25, 26, 27,
                28, 29, 30, 31,
            ])
        },
    )
}

// The first 16 bytes of a vector of 32.
#[inline(always)]
fn first_half(both: u8x32) -> u8x16 {
    both.swizzle(const { Places::new([0, 1, 2, 3, 4, 5, 6, 7, 8, 9, 10, 11, 12, 13, 14, 15]) })
}

// The last 16 bytes of a vector of 32.
#[inline(always)]
fn second_half(both: u8x32) -> u8x16 {
    both.swizzle(const { Places::new([16, 17, 18, 19, 20, 21, 22, 23, 24, 25, 26, 27, 28, 29, 30, 31]) })
}

// Two words as the vector of their bytes, the first word first.
#[derive(Clone, Copy)]
pub(in crate::proved::gf128) struct WordPair {
    pub(in crate::proved::gf128) bytes: u8x32,
}

impl WordPair {
    // The vector of two words.
    #[inline(always)]
    pub(in crate::proved::gf128) fn of(first: WordBytes, second: WordBytes) -> WordPair {
        WordPair { bytes: joined(first.bytes, second.bytes) }
    }

    // The vector of 32 bytes.
    #[inline(always)]
    pub(in crate::proved::gf128) fn of_bytes(bytes: [u8; 32]) -> WordPair {
        WordPair { bytes: u8x32::from_array(bytes) }
    }
}

impl Lanes for WordPair {
    #[inline(always)]
    fn zero() -> WordPair {
        WordPair::of(WordBytes::of(0), WordBytes::of(0))
    }

    #[inline(always)]
    fn xor(self, other: WordPair) -> WordPair {
        WordPair { bytes: self.bytes ^ other.bytes }
    }

    #[inline(always)]
    fn up(self, count: u64) -> WordPair {
        WordPair { bytes: (u64x4::from_le_bytes(self.bytes) << u64x4::splat(count)).to_le_bytes() }
    }

    #[inline(always)]
    fn down(self, count: u64) -> WordPair {
        WordPair { bytes: (u64x4::from_le_bytes(self.bytes) >> u64x4::splat(count)).to_le_bytes() }
    }

    #[inline(always)]
    fn sum(self) -> WordBytes {
        WordBytes { bytes: first_half(self.bytes) ^ second_half(self.bytes) }
    }
}
