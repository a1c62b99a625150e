// Made from crates/gf128/src/bit_mul.rt by tools/erase: not to be edited.
//! Multiplication in GHASH's field by shifts, one bit at a time (SP 800-38D, 6.3, algorithm 1).

use crate::proved::gf128::polynomial_word::{times_x, word_of};
use crate::proved::gf128::{Keyed128, Multiply};
use crate::proved::octets::Block;

/// The multiplier that takes one bit at a time. It has no table, and no branch: each bit of the factor multiplies the key, and
/// each bit that falls out of the product multiplies the modulus.
#[derive(Clone, Copy)]
pub struct BitMul {
    key: u128,
}

impl Multiply for BitMul {
    fn times_word(&self, x: u128) -> u128 {
        let key = self.key;
        let mut product = 0u128;
        // From the coefficient of x^127, the lowest bit, to that of x^0.
        for i in 0..128u32 {
            product = times_x(product) ^ ((x >> i) % 2 * key);
        }
        product
    }
}

impl Keyed128 for BitMul {
    fn of(key: &Block) -> BitMul {
        BitMul { key: word_of(key.bytes()) }
    }
}
