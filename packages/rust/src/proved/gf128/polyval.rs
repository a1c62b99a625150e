// Made from crates/gf128/src/polyval.rt by tools/erase: not to be edited.
//! POLYVAL (RFC 8452, 3), which reads a block from its last byte to its first. It is computed with GHASH's product (appendix
//! A).

use crate::proved::gf128::hash::BlockHash;
use crate::proved::gf128::hash_order::HashOrder;
use crate::proved::gf128::polynomial_word::{
    block_of, reversed_block_of, reversed_word_bytes, reversed_word_of, times_x, word_of_two,
};
use crate::proved::octets::Block;

/// Returns the key under which GHASH's product computes POLYVAL's: mulX of the reversed key (RFC 8452, appendix A). A
/// multiplier of that key serves [`Polyval::with`].
pub fn reversed_mul_x(key: &Block) -> Block {
    let word = reversed_word_of(key.bytes());
    let times = times_x(word);
    block_of(times)
}

/// The order of POLYVAL: the first byte of a block is the lowest byte of its word.
pub struct PolyvalOrder;

impl HashOrder for PolyvalOrder {
    #[inline(always)]
    fn word_of(block: &[u8; 16]) -> u128 {
        reversed_word_of(block)
    }

    #[inline(always)]
    fn word_bytes(block: &[u8; 16]) -> [u8; 16] {
        reversed_word_bytes(block)
    }

    // Both numbers and their bytes are in reverse order.
    #[inline(always)]
    fn word_of_two(first: u64, second: u64) -> u128 {
        word_of_two(second, first)
    }

    #[inline(always)]
    fn hash_of(sum: u128) -> Block {
        reversed_block_of(sum)
    }

    fn multiplier_key(key: &Block) -> Block {
        reversed_mul_x(key)
    }
}

/// POLYVAL over a text that comes in pieces (RFC 8452, 3), with the multiplier `M` in GHASH's field.
pub type Polyval<M> = BlockHash<M, PolyvalOrder>;
