// Made from crates/gf128/src/table_mul.rt by tools/erase: not to be edited.
//! Multiplication in GHASH's field (SP 800-38D, 6.3) by 32 tables of 16 bytes, which hold 32 multiples of the key.

use crate::proved::gf128::hash_order::HashOrder;
use crate::proved::gf128::polynomial_word::word_of;
use crate::proved::gf128::tables::PlainMultiples;
use crate::proved::gf128::wide_mul::times_many;
use crate::proved::gf128::{Keyed128, Multiply};
use crate::proved::octets::{Block, be_bytes, wide};

// From this many blocks on, it is faster to make the multiples of three more powers of the key and take four blocks at a time.
#[inline(always)]
fn many() -> usize {
    if wide() { 16 } else { 44 }
}

/// The multiplier that holds 32 multiples of the key, half a KiB: the first choice, whatever the length of the text. For a run
/// of many blocks it makes the multiples of three more powers of the key, and takes four blocks at a time.
///
/// Each byte of the factor looks up two multiples, one by the high and one by the low four bits. The multiples are stored byte by
/// byte, so that all sixteen bytes of the factor look up their byte of their multiples at once, in a vector of 16 bytes: no
/// address and no branch depends on the key or on the factor. The tables are made without any too.
#[derive(Clone, Copy)]
pub struct TableMul {
    pub(in crate::proved::gf128) word: u128,
    pub(in crate::proved::gf128) multiples: PlainMultiples,
}

// The product of a word and the key whose multiples these are. It is not inlined, since a loop would load all the tables before
// its first block.
#[inline(never)]
fn product(multiples: &PlainMultiples, x: u128) -> u128 {
    multiples.times_word(x)
}

// The sum after blocks that are taken one by one, under the key whose multiples these are.
#[inline(always)]
pub(in crate::proved::gf128) fn times_few<O: HashOrder>(
    multiples: &PlainMultiples,
    sum: u128,
    blocks: &[[u8; 16]],
) -> u128 {
    let mut total = sum;
    for block in blocks {
        total = product(multiples, total ^ O::word_of(block));
    }
    total
}

impl TableMul {
    // The multiplier of a word.
    #[inline(always)]
    pub(in crate::proved::gf128) fn of_word(word: u128) -> TableMul {
        let multiples = PlainMultiples::of(word);
        multiples.bytes_known();
        TableMul { word, multiples }
    }

    // The multiplier of 0, whose tables are all zeros.
    #[inline(always)]
    pub(in crate::proved::gf128) fn of_zero() -> TableMul {
        TableMul { word: 0, multiples: PlainMultiples::zeros() }
    }

    // Makes this the multiplier of a word.
    pub(in crate::proved::gf128) fn set_word(&mut self, word: u128) {
        *self = TableMul::of_word(word);
    }

    // The multiplier that borrows the multiples.
    #[inline(always)]
    fn lent<'a>(&'a self) -> PlainMul<'a> {
        PlainMul { word: self.word, numbers: &self.multiples }
    }

    /// Returns the key.
    #[inline(always)]
    pub fn key(&self) -> Block {
        Block::new(be_bytes(self.word))
    }

    /// Returns the multiples of the key as plain numbers, for [`PlainMul`].
    pub fn plain_multiples(&self) -> PlainMultiples {
        self.multiples
    }
}

impl Multiply for TableMul {
    fn times_word(&self, x: u128) -> u128 {
        self.lent().times_word(x)
    }

    #[inline(always)]
    fn times_all<O: HashOrder>(&self, sum: u128, blocks: &[[u8; 16]]) -> u128 {
        self.lent().times_all::<O>(sum, blocks)
    }
}

impl Keyed128 for TableMul {
    // Inlined, since a call would move the multiples.
    #[inline(always)]
    fn of(key: &Block) -> TableMul {
        TableMul::of_word(word_of(key.bytes()))
    }

    fn none() -> TableMul {
        TableMul::of_zero()
    }
}

/// The multiplier that borrows the plain numbers that [`TableMul::plain_multiples`] returned. It makes no table of
/// the key itself. It looks them up, and takes a run of many blocks, as [`TableMul`] does: no address and no branch depends on the
/// key or on the factor.
#[derive(Clone, Copy)]
pub struct PlainMul<'a> {
    word: u128,
    numbers: &'a PlainMultiples,
}

impl<'a> PlainMul<'a> {
    /// Makes the multiplier of `key`, with the multiples that [`TableMul::plain_multiples`] returned for it. The caller shows that
    /// the numbers are the multiples of the key.
    #[inline(always)]
    pub fn new(key: &Block, numbers: &'a PlainMultiples) -> PlainMul<'a> {
        numbers.bytes_known();
        PlainMul { word: word_of(key.bytes()), numbers }
    }
}

impl<'a> Multiply for PlainMul<'a> {
    fn times_word(&self, x: u128) -> u128 {
        product(self.numbers, x)
    }

    #[inline(always)]
    fn times_all<O: HashOrder>(&self, sum: u128, blocks: &[[u8; 16]]) -> u128 {
        if blocks.len() < many() {
            times_few::<O>(self.numbers, sum, blocks)
        } else {
            times_many::<O>(self.word, self.numbers, sum, blocks)
        }
    }
}
