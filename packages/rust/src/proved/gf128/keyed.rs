// Made from crates/gf128/src/keyed.rt by tools/erase: not to be edited.
//! Multiplication by a key in GHASH's field (SP 800-38D, 6.3): the traits that every multiplier has.

use crate::proved::gf128::hash_order::HashOrder;
use crate::proved::gf128::polynomial_word::{block_of, word_of};
use crate::proved::octets::Block;

/// Multiplication by a key of 16 bytes in GHASH's field (SP 800-38D, 6.3). An implementor has to give `times_word`, and may give
/// a faster method for many blocks. A reference to a multiplier is a multiplier too, so that a hash can borrow a table.
pub trait Multiply {
    /// Returns the product of a word and the key. A word is the number that a block spells, most significant byte first, so the
    /// bit of weight 2^127 is the coefficient of x^0.
    fn times_word(&self, x: u128) -> u128;

    /// Returns the product of a block and the key.
    fn times(&self, x: &Block) -> Block {
        block_of(self.times_word(word_of(x.bytes())))
    }

    /// Returns the sum after these blocks, as `O` reads them: each is added to the sum, which is then multiplied by the key.
    fn times_all<O: HashOrder>(&self, sum: u128, blocks: &[[u8; 16]]) -> u128 {
        let mut total = sum;
        for block in blocks {
            total = self.times_word(total ^ O::word_of(block));
        }
        total
    }
}

/// A multiplier that is made from its key. A borrowed one is not: see [`Multiply`].
pub trait Keyed128: Multiply + Sized {
    /// Makes the multiplier of `key`.
    fn of(key: &Block) -> Self;

    /// Makes the multiplier of a key of 16 zeros, to be replaced by [`Keyed128::set`].
    fn none() -> Self {
        Self::of(&Block::new([0; 16]))
    }

    /// Makes this the multiplier of `key`, in place: to move a large multiplier takes long.
    fn set(&mut self, key: &Block) {
        *self = Self::of(key);
    }
}

/// A borrowed multiplier.
impl<M: Multiply> Multiply for &M {
    #[inline(always)]
    fn times_word(&self, x: u128) -> u128 {
        (**self).times_word(x)
    }

    #[inline(always)]
    fn times_all<O: HashOrder>(&self, sum: u128, blocks: &[[u8; 16]]) -> u128 {
        (**self).times_all::<O>(sum, blocks)
    }
}
