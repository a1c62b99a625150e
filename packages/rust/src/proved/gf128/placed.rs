// Made from crates/gf128/src/placed.rt by tools/erase: not to be edited.
//! A sum of words, each moved up by some places, that is reduced once at the end (SP 800-38D, 6.3). Its three vectors overlap: a
//! half of 64 bits is shifted by itself, and what it loses goes to the next vector.

use crate::proved::gf128::word_bytes::WordBytes;

// A word in a vector of 16 bytes, or two in one of 32, of which only the XOR counts.
pub(in crate::proved::gf128) trait Lanes: Copy {
    // The vector of zeros.
    fn zero() -> Self;

    // XORs two vectors.
    fn xor(self, other: Self) -> Self;

    // Shifts both halves of each word up.
    fn up(self, count: u64) -> Self;

    // Shifts both halves of each word down.
    fn down(self, count: u64) -> Self;

    // The word, or the XOR of the two, as one word.
    fn sum(self) -> WordBytes;
}

// A number of 256 bits: the XOR of a word, of one that is moved up by 64 places, and of one that is moved up by 128. In vectors of
// 32 bytes it is the XOR of two such numbers, so that they need to be halved only once.
#[derive(Clone, Copy)]
struct Placed<L> {
    low: L,
    middle: L,
    high: L,
}

impl<L: Lanes> Placed<L> {
    // 0.
    #[inline(always)]
    fn none() -> Placed<L> {
        let zero = L::zero();
        Placed { low: zero, middle: zero, high: zero }
    }

    // XORs in words that are moved up by `count` places, fewer than 64.
    #[inline(always)]
    fn low(self, words: L, count: u64) -> Placed<L> {
        Placed { low: self.low.xor(words.up(count)), middle: self.middle.xor(words.down(64 - count)), high: self.high }
    }

    // XORs in words that are moved up by 64 places.
    #[inline(always)]
    fn middle(self, words: L) -> Placed<L> {
        Placed { low: self.low, middle: self.middle.xor(words), high: self.high }
    }

    // XORs in words that are moved up by 64 + `count` places, fewer than 128.
    #[inline(always)]
    fn high(self, words: L, count: u64) -> Placed<L> {
        Placed { low: self.low, middle: self.middle.xor(words.up(count)), high: self.high.xor(words.down(64 - count)) }
    }

    // XORs in words that are moved up by 128 places, and reduces the number.
    #[inline(always)]
    fn reduce_with(self, words: L) -> WordBytes {
        let first = self.low.sum();
        let second = self.middle.sum();
        let third = self.high.sum();
        let fourth = words.sum();
        let above = second.half_up();
        let below = second.half_down();
        let low = first.xor(above);
        let last = third.xor(fourth);
        let high = below.xor(last);
        let fold = low.folded();
        high.xor(fold)
    }
}

// Sixteen words, which stand for the bytes of a factor.
pub(in crate::proved::gf128) trait Parts<L: Lanes> {
    // The word of byte `j`.
    fn part(&self, j: usize) -> L;
}

// The sum of sixteen words, each moved up to the place of its byte, reduced.
#[inline(always)]
pub(in crate::proved::gf128) fn placed_sum<L: Lanes, P: Parts<L>>(words: &P) -> WordBytes {
    let mut sum = Placed::<L>::none();
    for j in 0..7usize {
        sum = sum.low(words.part(j), 8 * j as u64 + 8);
    }
    let seventh = words.part(7);
    sum = sum.middle(seventh);
    for j in 0..7usize {
        sum = sum.high(words.part(j + 8), 8 * j as u64 + 8);
    }
    let last = words.part(15);
    sum.reduce_with(last)
}
