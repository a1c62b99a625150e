// Made from crates/gf128/src/ghash.rt by tools/erase: not to be edited.
//! GHASH (SP 800-38D, 6.4), which reads a block from its first byte to its last.

use crate::proved::gf128::hash::BlockHash;
use crate::proved::gf128::hash_order::HashOrder;
use crate::proved::gf128::polynomial_word::{block_of, word_bytes, word_of, word_of_two};
use crate::proved::octets::Block;

/// The order of GHASH: the first byte of a block is the highest byte of its word.
pub struct GhashOrder;

impl HashOrder for GhashOrder {
    #[inline(always)]
    fn word_of(block: &[u8; 16]) -> u128 {
        word_of(block)
    }

    #[inline(always)]
    fn word_bytes(block: &[u8; 16]) -> [u8; 16] {
        word_bytes(block)
    }

    #[inline(always)]
    fn word_of_two(first: u64, second: u64) -> u128 {
        word_of_two(first, second)
    }

    #[inline(always)]
    fn hash_of(sum: u128) -> Block {
        block_of(sum)
    }

    fn multiplier_key(key: &Block) -> Block {
        *key
    }
}

/// GHASH over a text that comes in pieces (SP 800-38D, 6.4), with the multiplier `M`.
pub type Ghash<M> = BlockHash<M, GhashOrder>;
