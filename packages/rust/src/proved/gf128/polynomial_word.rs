// Made from crates/gf128/src/polynomial_word.rt by tools/erase: not to be edited.
//! Words of 128 bits as polynomials of GHASH's field (SP 800-38D, 6.3): the bit of weight 2^127 is the coefficient of x^0.

use crate::proved::gf128::word_bytes::WordBytes;
use crate::proved::octets::{Block, be_bytes, le_bytes};

// The coefficients of the modulus below x^128.
const REDUCTION: u128 = 0xe100_0000_0000_0000_0000_0000_0000_0000;

// The word of a block.
#[inline(always)]
pub(in crate::proved::gf128) fn word_of(block: &[u8; 16]) -> u128 {
    u128::from_be_bytes(*block)
}

// The bytes of the word of a block, the least significant one first. They are reversed in a vector, so that a block that is
// read into one stays out of the general registers.
#[inline(always)]
pub(in crate::proved::gf128) fn word_bytes(block: &[u8; 16]) -> [u8; 16] {
    let word = WordBytes::of_bytes(*block);
    word.bytes.reverse().to_array()
}

// The bytes of the word of the block with its bytes in reverse order, the least significant one first.
#[inline(always)]
pub(in crate::proved::gf128) fn reversed_word_bytes(block: &[u8; 16]) -> [u8; 16] {
    let word = WordBytes::of_bytes(*block);
    word.bytes.to_array()
}

// The word of the block with its bytes in reverse order.
#[inline(always)]
pub(in crate::proved::gf128) fn reversed_word_of(block: &[u8; 16]) -> u128 {
    u128::from_le_bytes(*block)
}

// The word of a block of two numbers, each with its most significant byte first.
#[inline(always)]
pub(in crate::proved::gf128) fn word_of_two(first: u64, second: u64) -> u128 {
    u128::from(first) * 0x1_0000_0000_0000_0000 + u128::from(second)
}

// The block of a word.
#[inline(always)]
pub(in crate::proved::gf128) fn block_of(word: u128) -> Block {
    Block::new(be_bytes(word))
}

// The block of a word, with its bytes in reverse order.
#[inline(always)]
pub(in crate::proved::gf128) fn reversed_block_of(word: u128) -> Block {
    Block::new(le_bytes(word))
}

// The word times x, with no branch: the bit that falls out is a factor.
#[inline(always)]
pub(in crate::proved::gf128) fn times_x(word: u128) -> u128 {
    (word >> 1) ^ (word % 2 * REDUCTION)
}
