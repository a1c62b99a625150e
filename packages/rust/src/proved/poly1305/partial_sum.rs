// Made from crates/poly1305/src/partial_sum.rt by tools/erase: not to be edited.
//! A sum of Poly1305 over whole blocks (RFC 8439, 2.5). A stream adds one block to it in each step, interleaved with its own work.

use crate::proved::octets::BlockWork;
use crate::proved::poly1305::Multiplier;
use crate::proved::poly1305::residue::Sum;

/// The sum over the blocks so far.
pub struct PartialSum<'a, M> {
    pub(in crate::proved::poly1305) multiplier: &'a M,
    /// Partly reduced.
    pub sum: Sum,
}

impl<'a, M> Clone for PartialSum<'a, M> {
    fn clone(&self) -> Self {
        *self
    }
}

impl<'a, M> Copy for PartialSum<'a, M> {}

impl<'a, M: Multiplier> BlockWork for PartialSum<'a, M> {
    #[inline(always)]
    fn step<'t>(&mut self, left: &'t [u8], reserve: usize) -> &'t [u8] {
        if left.len() / 16 <= reserve {
            return left;
        }
        match left.split_first_chunk::<16>() {
            Some((block, rest)) => {
                self.sum = self.multiplier.step(self.sum, u128::from_le_bytes(*block), 1);
                rest
            }
            None => left,
        }
    }
}
