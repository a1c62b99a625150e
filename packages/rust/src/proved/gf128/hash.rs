// Made from crates/gf128/src/hash.rt by tools/erase: not to be edited.
//! GHASH and POLYVAL over a text that comes in pieces (SP 800-38D, 6.4; RFC 8452, 3). Both have the same state, with the order
//! of a block's bytes as a type parameter.

use crate::proved::gf128::hash_order::HashOrder;
use crate::proved::gf128::{Keyed128, Multiply};
use crate::proved::octets::{Absorb, Block, Pieces};
use core::marker::PhantomData;

// The sum over whole blocks.
pub(in crate::proved::gf128) struct BlockSum<M, O> {
    pub(in crate::proved::gf128) multiplier: M,
    pub(in crate::proved::gf128) sum: u128,
    pub(in crate::proved::gf128) order: PhantomData<O>,
}

impl<M: Multiply, O: HashOrder> BlockSum<M, O> {
    // Absorbs the block that has this word.
    #[inline(always)]
    fn absorb_word(&mut self, word: u128) {
        self.sum = self.multiplier.times_word(self.sum ^ word);
    }
}

impl<M: Multiply, O: HashOrder> Absorb for BlockSum<M, O> {
    fn absorb(&mut self, blocks: &[u8]) {
        let (whole, _) = blocks.as_chunks::<16>();
        self.sum = self.multiplier.times_all::<O>(self.sum, whole);
    }
}

/// GHASH or POLYVAL over a text that comes in pieces, with the multiplier `M` in GHASH's field.
pub struct BlockHash<M, O> {
    pub(in crate::proved::gf128) pieces: Pieces<BlockSum<M, O>>,
}

impl<M: Keyed128, O: HashOrder> BlockHash<M, O> {
    /// Makes a state that holds the empty text, under a key of 16 bytes.
    pub fn new(key: &Block) -> BlockHash<M, O> {
        BlockHash::with(M::of(&O::multiplier_key(key)))
    }
}

impl<M: Multiply, O: HashOrder> BlockHash<M, O> {
    /// Makes a state that holds the empty text. For GHASH the key is that of the multiplier; for POLYVAL it is the key of which
    /// [`crate::proved::gf128::reversed_mul_x`] is that of the multiplier. The multiplier may be borrowed.
    pub fn with(multiplier: M) -> BlockHash<M, O> {
        BlockHash { pieces: Pieces::new(BlockSum { multiplier, sum: 0, order: PhantomData }) }
    }

    /// Resumes the state that holds a text: `sum` is the sum over the whole blocks of the text, and `rest` the bytes after
    /// them, fewer than 16. The multiplier is as for [`BlockHash::with`].
    pub fn resumed(multiplier: M, sum: u128, rest: &[u8]) -> BlockHash<M, O> {
        let order = PhantomData;
        BlockHash { pieces: Pieces::resumed(BlockSum { multiplier, sum, order }, rest) }
    }

    /// Returns the sum over the whole blocks of the text.
    pub fn sum(&self) -> u128 {
        self.pieces.core.sum
    }

    /// Returns the bytes of the text after its last whole block: fewer than 16.
    pub fn rest(&self) -> &[u8] {
        self.pieces.rest()
    }

    /// Adds `piece`, of any length, to the text.
    pub fn update(&mut self, piece: &[u8]) {
        self.pieces.update(piece);
    }

    /// Adds the fewest zero bytes that make the text's length a multiple of 16.
    pub fn pad16(&mut self) {
        self.pieces.pad16();
    }

    /// Adds the fewest zero bytes that make the text's length a multiple of 16, and then a block of two numbers of 8 bytes each, as
    /// [`HashOrder::word_of_two`] has it.
    pub fn pad16_and_add_two(&mut self, first: u64, second: u64) {
        self.pieces.pad16();
        self.pieces.core.absorb_word(O::word_of_two(first, second));
    }

    /// Returns the hash of the text so far, if the text is whole blocks of 16 bytes.
    pub fn hash(&self) -> Block {
        O::hash_of(self.pieces.core.sum)
    }

    /// Returns the hash of the text, padded with zeros to whole blocks. Consumes the state.
    pub fn finish(mut self) -> Block {
        self.pad16();
        self.hash()
    }
}
