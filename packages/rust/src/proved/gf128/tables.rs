// Made from crates/gf128/src/tables.rt by tools/erase: not to be edited.
//! The multiples of a word of GHASH's field (SP 800-38D, 6.3) by all polynomials of four bits, stored byte by byte: a table of
//! sixteen bytes has byte j of all sixteen multiples, so that a vector looks sixteen bytes up at once, in a register.

use crate::proved::gf128::nibbles::Nibbles;
use crate::proved::gf128::placed::{Parts, placed_sum};
use crate::proved::gf128::word_bytes::WordBytes;
use crate::simd::u8x16;

// Where the bit of weight 2 of an index is set, and that of weight 1.
const TWOS: [u8; 16] = [0, 0, 255, 255, 0, 0, 255, 255, 0, 0, 255, 255, 0, 0, 255, 255];

const ONES: [u8; 16] = [0, 255, 0, 255, 0, 255, 0, 255, 0, 255, 0, 255, 0, 255, 0, 255];

// An index divided by 4, and its remainder.
const FOURTHS: [u8; 16] = [0, 0, 0, 0, 1, 1, 1, 1, 2, 2, 2, 2, 3, 3, 3, 3];

const REMAINDERS: [u8; 16] = [0, 1, 2, 3, 0, 1, 2, 3, 0, 1, 2, 3, 0, 1, 2, 3];

// Four bytes of two words, from byte 4 * `group` on: of each the four sums of none, the second word's, the first word's, and both.
#[inline(always)]
fn pair_sums(first: WordBytes, second: WordBytes, group: usize) -> u8x16 {
    let at = u8x16::from_array(FOURTHS) + u8x16::splat(4 * group as u8);
    let twos = first.bytes.swizzle_dyn_within::<16>(at) & u8x16::from_array(TWOS);
    let ones = second.bytes.swizzle_dyn_within::<16>(at) & u8x16::from_array(ONES);
    twos ^ ones
}

// The table of the byte at `place` in two such groups: the upper two bits of an index choose in `high`, the lower two in `low`.
#[inline(always)]
fn table_of(high: u8x16, low: u8x16, place: usize) -> [u8; 16] {
    let first = u8x16::splat(4 * place as u8);
    let by_high = high.swizzle_dyn_within::<16>(u8x16::from_array(FOURTHS) + first);
    let by_low = low.swizzle_dyn_within::<16>(u8x16::from_array(REMAINDERS) + first);
    (by_high ^ by_low).to_array()
}

// The sixteen multiples of a word by four bits, which are sums of the word times 1, x, x^2 and x^3. Table j has byte j of each.
#[inline(always)]
fn sixteen_tables(once: WordBytes) -> [[u8; 16]; 16] {
    let by_x = once.times_power(1);
    let by_x2 = once.times_power(2);
    let by_x3 = by_x2.times_power(1);
    let mut tables = [[0; 16]; 16];
    for group in 0..4usize {
        let high = pair_sums(once, by_x, group);
        let low = pair_sums(by_x2, by_x3, group);
        for place in 0..4usize {
            tables[4 * group + place] = table_of(high, low, place);
        }
    }
    tables
}

/// The 32 multiples of a key by four bits each, stored byte by byte in 32 tables of 16 bytes, for a caller that stores them.
#[repr(C)]
#[derive(Clone, Copy)]
pub struct PlainMultiples {
    high: [[u8; 16]; 16],
    low: [[u8; 16]; 16],
}

impl PlainMultiples {
    /// All zeros, which are the multiples of 0.
    pub fn zeros() -> PlainMultiples {
        PlainMultiples { high: [[0; 16]; 16], low: [[0; 16]; 16] }
    }

    // The multiples of a word.
    #[inline(always)]
    pub(in crate::proved::gf128) fn of(word: u128) -> PlainMultiples {
        let once = WordBytes::of(word);
        let by_x4 = once.times_power(4);
        PlainMultiples { high: sixteen_tables(once), low: sixteen_tables(by_x4) }
    }

    // Shows that the tables hold bytes. It does nothing.
    #[inline(always)]
    pub(in crate::proved::gf128) fn bytes_known(&self) {}

    // The table of byte `j` of the multiples by the high four bits.
    #[inline(always)]
    pub(in crate::proved::gf128) fn high_table(&self, j: usize) -> WordBytes {
        WordBytes::of_bytes(self.high[j])
    }

    // The table of byte `j` of the multiples by the low four bits.
    #[inline(always)]
    pub(in crate::proved::gf128) fn low_table(&self, j: usize) -> WordBytes {
        WordBytes::of_bytes(self.low[j])
    }

    // What the tables of byte `j` of the multiples give for the bytes of a word.
    #[inline(always)]
    pub(in crate::proved::gf128) fn part(&self, at: Nibbles, j: usize) -> WordBytes {
        at.look(self.high[j], self.low[j])
    }

    // Multiplies the word whose multiples these are by another word, both as vectors.
    #[inline(always)]
    pub(in crate::proved::gf128) fn times_bytes(&self, word: WordBytes) -> WordBytes {
        let at = Nibbles::of(word);
        let words = OneWord { multiples: self, at };
        placed_sum::<WordBytes, OneWord>(&words)
    }

    // Multiplies the word whose multiples these are by another word.
    #[inline(always)]
    pub(in crate::proved::gf128) fn times_word(&self, x: u128) -> u128 {
        let word = WordBytes::of(x);
        self.times_bytes(word).word()
    }
}

// What the multiples of a word give for each byte of another one.
struct OneWord<'a> {
    multiples: &'a PlainMultiples,
    at: Nibbles,
}

impl<'a> Parts<WordBytes> for OneWord<'a> {
    #[inline(always)]
    fn part(&self, j: usize) -> WordBytes {
        self.multiples.part(self.at, j)
    }
}
