// Made from crates/gf128/src/nibbles.rt by tools/erase: not to be edited.
//! Look-ups by the bytes of a word in registers: each byte's high and low four bits are the index into a table of sixteen bytes
//! that is a vector. No address depends on the word.

use crate::proved::gf128::word_bytes::WordBytes;
use crate::proved::gf128::word_pairs::WordPair;
use crate::simd::{u8x16, u8x32};

// The bytes of a word, and the high and the low four bits of each.
#[derive(Clone, Copy)]
pub(in crate::proved::gf128) struct Nibbles {
    word: WordBytes,
    high: u8x16,
    low: u8x16,
}

impl Nibbles {
    // Splits the bytes of a word.
    #[inline(always)]
    pub(in crate::proved::gf128) fn of(word: WordBytes) -> Nibbles {
        Nibbles { word, high: word.bytes >> u8x16::splat(4), low: word.bytes & u8x16::splat(15) }
    }

    // Looks the high four bits of each byte up in one table and the low four bits in another, and XORs what they give.
    #[inline(always)]
    pub(in crate::proved::gf128) fn look(self, high: [u8; 16], low: [u8; 16]) -> WordBytes {
        let by_high = u8x16::from_array(high).swizzle_dyn_within::<16>(self.high);
        let by_low = u8x16::from_array(low).swizzle_dyn_within::<16>(self.low);
        WordBytes { bytes: by_high ^ by_low }
    }
}

// The bytes of two words, and the high and the low four bits of each, in vectors of 32 bytes.
#[derive(Clone, Copy)]
pub(in crate::proved::gf128) struct NibblePairs {
    first: WordBytes,
    second: WordBytes,
    high: u8x32,
    low: u8x32,
}

impl NibblePairs {
    // Splits the bytes of two words.
    #[inline(always)]
    pub(in crate::proved::gf128) fn of(first: WordBytes, second: WordBytes) -> NibblePairs {
        let pair = WordPair::of(first, second);
        NibblePairs { first, second, high: pair.bytes >> u8x32::splat(4), low: pair.bytes & u8x32::splat(15) }
    }

    // Looks the bytes of each word up in a pair of tables of its own, as [`Nibbles::look`] does: those of the first word in the
    // first halves of these tables, and those of the second word in the second halves.
    #[inline(always)]
    pub(in crate::proved::gf128) fn look(self, high: WordPair, low: WordPair) -> WordPair {
        let by_high = high.bytes.swizzle_dyn_within::<16>(self.high);
        let by_low = low.bytes.swizzle_dyn_within::<16>(self.low);
        WordPair { bytes: by_high ^ by_low }
    }
}
