// Made from crates/poly1305/src/poly.rt by tools/erase: not to be edited.
//! The one-time authenticator Poly1305 over a text that comes in pieces (RFC 8439, 2.5).

use crate::proved::octets::{Absorb, Pieces, Tag, le_bytes};
use crate::proved::poly1305::Multiplier;
use crate::proved::poly1305::partial_sum::PartialSum;
use crate::proved::poly1305::residue::Sum;
use crate::proved::poly1305::side_by_side::{TWO_SUMS_FROM, add_halves, far_factor};

// The bits of r that clamping does not clear (RFC 8439, 2.5).
const R_MASK: u128 = 0x0ffffffc0ffffffc0ffffffc0fffffff;

// The sum over whole blocks, with both numbers of the key: the multiplier by r, and s. Only `tag` and `sum` need the sum completely
// reduced, so until then it is partly reduced.
struct PolySum<M> {
    multiplier: M,
    addend: u128,
    sum: Sum,
}

impl<M: Multiplier> Absorb for PolySum<M> {
    fn absorb(&mut self, blocks: &[u8]) {
        if blocks.len() < TWO_SUMS_FROM {
            self.absorb_blocks(blocks);
            return;
        }
        let half = blocks.len() / 32 * 16;
        self.absorb_halves(&blocks[..half], &blocks[half..2 * half]);
        self.absorb_blocks(&blocks[2 * half..]);
    }
}

impl<M: Multiplier> PolySum<M> {
    // Adds whole blocks to the sum.
    #[inline(always)]
    fn absorb_blocks(&mut self, blocks: &[u8]) {
        let (whole, _) = blocks.as_chunks::<16>();
        let mut sum = self.sum;
        for block in whole {
            sum = self.multiplier.step(sum, u128::from_le_bytes(*block), 1);
        }
        self.sum = sum;
    }

    // Adds the block that spells this number to the sum.
    #[inline(always)]
    fn absorb_number(&mut self, number: u128) {
        self.sum = self.multiplier.step(self.sum, number, 1);
    }

    // Adds the whole blocks of two halves of equal length to the sum.
    #[inline(never)]
    fn absorb_halves(&mut self, front: &[u8], back: &[u8]) {
        let far = far_factor(&self.multiplier, front.len() / 16);
        self.sum = add_halves(&self.multiplier, self.sum, far, front, back);
    }
}

// The number of a block of fewer than 16 bytes: its bytes, and an extra bit above them.
fn short_block_number(bytes: &[u8]) -> u128 {
    let mut block = [0u8; 16];
    block[..bytes.len()].copy_from_slice(bytes);
    block[bytes.len()] = 1;
    u128::from_le_bytes(block)
}

/// A one-time authenticator over a text that comes in pieces, with the multiplier `M`.
pub struct PolyBy<M> {
    pieces: Pieces<PolySum<M>>,
}

impl<M: Multiplier> PolyBy<M> {
    /// Makes a state that holds the empty text, under a key of 32 bytes: r, then s (RFC 8439, 2.5).
    ///
    /// It is a one-time key, which must never be used for two texts: two tags under it give away enough to forge the tags of
    /// other texts. AEAD_CHACHA20_POLY1305 derives a new one-time key from each nonce (2.6).
    pub fn new(key: &[u8; 32]) -> PolyBy<M> {
        let mut first = [0u8; 16];
        first.copy_from_slice(&key[..16]);
        let mut second = [0u8; 16];
        second.copy_from_slice(&key[16..]);
        PolyBy {
            pieces: Pieces::new(PolySum {
                multiplier: M::new(u128::from_le_bytes(first) & R_MASK),
                addend: u128::from_le_bytes(second),
                sum: Sum::of_word(0),
            }),
        }
    }

    /// Resumes the state that holds a text. The sum over the whole blocks of the text is `low` plus 2^128 times `high`, and the
    /// bytes after them are `rest`, fewer than 16. The key is a one-time key, as for [`PolyBy::new`].
    pub fn resumed(key: &[u8; 32], low: u128, high: u64, rest: &[u8]) -> PolyBy<M> {
        let mut first = [0u8; 16];
        first.copy_from_slice(&key[..16]);
        let mut second = [0u8; 16];
        second.copy_from_slice(&key[16..]);
        let sum = Sum { low, high: high % 4 };
        let core = PolySum {
            multiplier: M::new(u128::from_le_bytes(first) & R_MASK),
            addend: u128::from_le_bytes(second),
            sum,
        };
        PolyBy { pieces: Pieces::resumed(core, rest) }
    }

    /// Returns the sum over the whole blocks of the text, as `low` and `high`: it is `low` plus 2^128 times `high`.
    pub fn sum(&self) -> (u128, u64) {
        let sum = self.pieces.core.sum.residue();
        (sum.low, sum.high)
    }

    /// Returns the bytes of the text after its last whole block: fewer than 16.
    pub fn rest(&self) -> &[u8] {
        self.pieces.rest()
    }

    /// Adds `piece`, of any length, to the text.
    pub fn update(&mut self, piece: &[u8]) {
        self.pieces.update(piece);
    }

    /// Returns the sum over the text so far, to which other code adds whole blocks in steps. The text must consist of whole blocks:
    /// [`PolyBy::rest`] is empty.
    pub fn partial_sum(&self) -> PartialSum<'_, M> {
        PartialSum { multiplier: &self.pieces.core.multiplier, sum: self.pieces.core.sum }
    }

    /// Takes back the sum that [`PolyBy::partial_sum`] returned, to which whole blocks were added since: the text now ends with these.
    pub fn set_sum(&mut self, sum: Sum) {
        self.pieces.core.sum = sum;
    }

    /// Adds the fewest zero bytes that make the text's length a multiple of 16 bytes (RFC 8439, 2.8.1).
    pub fn pad16(&mut self) {
        self.pieces.pad16();
    }

    /// Adds the fewest zero bytes that make the text's length a multiple of 16 bytes, and then a block of two numbers of 8 bytes
    /// each, the least significant byte first (RFC 8439, 2.8.1).
    #[inline(always)]
    pub fn pad16_and_add_two(&mut self, first: u64, second: u64) {
        let number = u128::from(first) + u128::from(second) * 0x1_0000_0000_0000_0000;
        self.pieces.pad16();
        self.pieces.core.absorb_number(number);
    }

    /// Returns the tag of the text so far (RFC 8439, 2.5). The key must not be used for a second tag: see [`PolyBy::new`].
    pub fn tag(&self) -> Tag {
        let core = &self.pieces.core;
        let rest = self.pieces.rest();
        let mut sum = core.sum;
        if rest.len() > 0 {
            let last = short_block_number(rest);
            sum = core.multiplier.step(sum, last, 0);
        }
        let total = sum.residue();
        Tag::new(le_bytes(total.low.wrapping_add(core.addend)))
    }

    /// Returns the tag of the text (RFC 8439, 2.5). Consumes the state.
    pub fn finish(self) -> Tag {
        self.tag()
    }
}
