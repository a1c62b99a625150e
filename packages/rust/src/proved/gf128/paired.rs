// Made from crates/gf128/src/paired.rt by tools/erase: not to be edited.
//! The tables of multiples of two words side by side, so that a vector of 32 bytes looks the bytes of two words up at once.

use crate::proved::gf128::nibbles::NibblePairs;
use crate::proved::gf128::placed::{Lanes, Parts, placed_sum};
use crate::proved::gf128::tables::PlainMultiples;
use crate::proved::gf128::word_bytes::WordBytes;
use crate::proved::gf128::word_pairs::WordPair;

// The tables of two words: those of the first one are the first halves of the tables of 32 bytes.
pub(in crate::proved::gf128) struct PairTables {
    high: [[u8; 32]; 16],
    low: [[u8; 32]; 16],
}

impl PairTables {
    // The tables of two words from those of each.
    #[inline(always)]
    pub(in crate::proved::gf128) fn of(first: &PlainMultiples, second: &PlainMultiples) -> PairTables {
        let mut high = [[0; 32]; 16];
        let mut low = [[0; 32]; 16];
        for j in 0..16usize {
            let high_pair = WordPair::of(first.high_table(j), second.high_table(j));
            let low_pair = WordPair::of(first.low_table(j), second.low_table(j));
            high[j] = high_pair.bytes.to_array();
            low[j] = low_pair.bytes.to_array();
        }
        PairTables { high, low }
    }

    // What the tables of byte `j` of the multiples give for the bytes of two words.
    #[inline(always)]
    fn part(&self, at: NibblePairs, j: usize) -> WordPair {
        let high = WordPair::of_bytes(self.high[j]);
        let low = WordPair::of_bytes(self.low[j]);
        at.look(high, low)
    }
}

// What two pairs of tables give for each byte of four words.
struct FourPaired<'a> {
    upper: &'a PairTables,
    lower: &'a PairTables,
    ab: NibblePairs,
    cd: NibblePairs,
}

impl<'a> Parts<WordPair> for FourPaired<'a> {
    #[inline(always)]
    fn part(&self, j: usize) -> WordPair {
        let high = self.upper.part(self.ab, j);
        let low = self.lower.part(self.cd, j);
        high.xor(low)
    }
}

// The sum of the products of four words, each with the word whose multiples a half of the tables holds.
#[inline(always)]
pub(in crate::proved::gf128) fn times_pairs(
    upper: &PairTables,
    lower: &PairTables,
    a: WordBytes,
    b: WordBytes,
    c: WordBytes,
    d: WordBytes,
) -> WordBytes {
    let ab = NibblePairs::of(a, b);
    let cd = NibblePairs::of(c, d);
    let words = FourPaired { upper, lower, ab, cd };
    placed_sum::<WordPair, FourPaired>(&words)
}
