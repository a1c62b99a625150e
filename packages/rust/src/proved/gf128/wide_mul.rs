// Made from crates/gf128/src/wide_mul.rt by tools/erase: not to be edited.
//! Four products in GHASH's field (SP 800-38D, 6.3) in one sum, by tables of multiples of the key's first four powers.

use crate::proved::gf128::hash_order::HashOrder;
use crate::proved::gf128::nibbles::Nibbles;
use crate::proved::gf128::paired::{PairTables, times_pairs};
use crate::proved::gf128::placed::{Lanes, Parts, placed_sum};
use crate::proved::gf128::table_mul::{TableMul, times_few};
use crate::proved::gf128::tables::PlainMultiples;
use crate::proved::gf128::word_bytes::WordBytes;
use crate::proved::gf128::{Keyed128, Multiply};
use crate::proved::octets::{Block, wide};

// From this many runs of four blocks on, it is faster to copy the tables for vectors of 32 bytes.
const PAIRS_PAY: usize = 3;

/// The multiplier that holds 32 multiples of each of the key's first four powers, 2 KiB, and takes four blocks at a time. It
/// is for a key that hashes several long texts; for one long text, [`TableMul`] makes the tables where they are used.
///
/// It looks them up as [`TableMul`] does, in registers: no address and no branch depends on the key or on the blocks.
pub struct WideMul {
    first: TableMul,
    second: TableMul,
    third: TableMul,
    fourth: TableMul,
}

// What multiplies four words by the first four powers of a key.
trait FourProducts {
    // The sum of four words times four powers of the key, the fourth power first.
    fn times_four(&self, a: WordBytes, b: WordBytes, c: WordBytes, d: WordBytes) -> WordBytes;
}

// What the tables of a multiplier give for each byte of four words, each with the tables of its own power.
struct FourWords<'a> {
    multiplier: &'a WideMul,
    fourth: Nibbles,
    third: Nibbles,
    second: Nibbles,
    first: Nibbles,
}

impl<'a> Parts<WordBytes> for FourWords<'a> {
    #[inline(always)]
    fn part(&self, j: usize) -> WordBytes {
        let tables = self.multiplier;
        let fourth = tables.fourth.multiples.part(self.fourth, j);
        let third = tables.third.multiples.part(self.third, j);
        let second = tables.second.multiples.part(self.second, j);
        let first = tables.first.multiples.part(self.first, j);
        let high = fourth.xor(third);
        let low = second.xor(first);
        high.xor(low)
    }
}

impl FourProducts for WideMul {
    #[inline(always)]
    fn times_four(&self, a: WordBytes, b: WordBytes, c: WordBytes, d: WordBytes) -> WordBytes {
        let fourth = Nibbles::of(a);
        let third = Nibbles::of(b);
        let second = Nibbles::of(c);
        let first = Nibbles::of(d);
        let words = FourWords { multiplier: self, fourth, third, second, first };
        placed_sum::<WordBytes, FourWords>(&words)
    }
}

// A multiplier with its tables in pairs, for vectors of 32 bytes.
struct PairedMul<'a> {
    multiplier: &'a WideMul,
    upper: &'a PairTables,
    lower: &'a PairTables,
}

impl<'a> FourProducts for PairedMul<'a> {
    #[inline(always)]
    fn times_four(&self, a: WordBytes, b: WordBytes, c: WordBytes, d: WordBytes) -> WordBytes {
        times_pairs(self.upper, self.lower, a, b, c, d)
    }
}

// The sum after blocks that come in fours.
#[inline(always)]
fn times_fours<O: HashOrder, F: FourProducts>(multiplier: &F, sum: u128, fours: &[[[u8; 16]; 4]]) -> u128 {
    // The sum stays a vector from one run of four blocks to the next.
    let mut total = WordBytes::of(sum);
    for four in fours {
        let first = WordBytes::of_bytes(O::word_bytes(&four[0]));
        let a = total.xor(first);
        let b = WordBytes::of_bytes(O::word_bytes(&four[1]));
        let c = WordBytes::of_bytes(O::word_bytes(&four[2]));
        let d = WordBytes::of_bytes(O::word_bytes(&four[3]));
        total = multiplier.times_four(a, b, c, d);
    }
    total.word()
}

impl WideMul {
    // Makes this the multiplier of the key that this word is, in place. To copy the key's multiples is faster than to make them.
    fn set_multiples(&mut self, word: u128, multiples: &PlainMultiples) {
        self.first = TableMul { word, multiples: *multiples };
        let second = multiples.times_word(word);
        let third = multiples.times_word(second);
        let fourth = multiples.times_word(third);
        self.second.set_word(second);
        self.third.set_word(third);
        self.fourth.set_word(fourth);
    }

    /// Makes this the multiplier of the key that `table` is the multiplier of, in place.
    pub fn set_table(&mut self, table: &TableMul) {
        self.set_multiples(table.word, &table.multiples);
    }

    // The form that the processor's vectors allow.
    #[inline(always)]
    fn times_runs<O: HashOrder>(&self, sum: u128, fours: &[[[u8; 16]; 4]]) -> u128 {
        if wide() && fours.len() >= PAIRS_PAY {
            // The tables are copied once, so that each look-up loads two tables at once.
            let upper = PairTables::of(&self.fourth.multiples, &self.third.multiples);
            let lower = PairTables::of(&self.second.multiples, &self.first.multiples);
            let by_pairs = PairedMul { multiplier: self, upper: &upper, lower: &lower };
            times_fours::<O, PairedMul>(&by_pairs, sum, fours)
        } else {
            times_fours::<O, WideMul>(self, sum, fours)
        }
    }
}

impl Multiply for WideMul {
    fn times_word(&self, x: u128) -> u128 {
        self.first.times_word(x)
    }

    // A call of its own: inlined where the multiplier is chosen at run time, it would make the caller's frame 2 KiB longer.
    #[inline(never)]
    fn times_all<O: HashOrder>(&self, sum: u128, blocks: &[[u8; 16]]) -> u128 {
        let (fours, rest) = blocks.as_chunks::<4>();
        let taken = self.times_runs::<O>(sum, fours);
        times_few::<O>(&self.first.multiples, taken, rest)
    }
}

impl Keyed128 for WideMul {
    // Inlined, since a call would move the tables twice.
    #[inline(always)]
    fn of(key: &Block) -> WideMul {
        let mut multiplier = WideMul::none();
        multiplier.set(key);
        multiplier
    }

    // Inlined, so that the tables are cleared where they stay.
    #[inline(always)]
    fn none() -> WideMul {
        WideMul {
            first: TableMul::of_zero(),
            second: TableMul::of_zero(),
            third: TableMul::of_zero(),
            fourth: TableMul::of_zero(),
        }
    }

    fn set(&mut self, key: &Block) {
        let first = TableMul::of(key);
        self.set_multiples(first.word, &first.multiples);
    }
}

// The sum after many blocks, under the key that this word is and whose multiples these are. The tables of four powers stand on
// the stack here alone.
#[inline(never)]
pub(in crate::proved::gf128) fn times_many<O: HashOrder>(
    word: u128,
    multiples: &PlainMultiples,
    sum: u128,
    blocks: &[[u8; 16]],
) -> u128 {
    let mut multiplier = WideMul::none();
    multiplier.set_multiples(word, multiples);
    multiplier.times_all::<O>(sum, blocks)
}
