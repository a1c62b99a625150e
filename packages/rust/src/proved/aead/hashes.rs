// Made from crates/aead/src/hashes.rt by tools/erase: not to be edited.
//! The hashes of the constructions, of which their tags are made: Poly1305 (RFC 8439, 2.8), GHASH (SP 800-38D, 7.1) and POLYVAL
//! (RFC 8452, 4).

use crate::proved::aead::rule::Rule;
use crate::proved::gf128::{BlockHash, Multiply};
use crate::proved::octets::Block;
use crate::proved::poly1305::Poly;
use core::marker::PhantomData;

// The hash of a construction under the keys of a message.
pub(in crate::proved::aead) trait TagHash {
    // Takes in the next bytes.
    fn take_in(&mut self, bytes: &[u8]);

    // Pads with zeros to whole blocks.
    fn pad(&mut self);

    // Returns the sum over the whole blocks of the text: the lower 128 bits, and the bits above them.
    fn sum(&self) -> (u128, u64);

    // Returns the bytes of the text after the last whole block.
    fn rest(&self) -> &[u8];

    // Pads the bytes after the associated data, takes in both lengths, and returns the hash, of which the tag is made. The state must
    // not be used afterwards.
    fn digest(&mut self, aad_length: u64, bytes_length: u64) -> Block;
}

// Poly1305; the lengths are in bytes (RFC 8439, 2.8).
impl TagHash for Poly {
    fn take_in(&mut self, bytes: &[u8]) {
        self.update(bytes);
    }

    fn pad(&mut self) {
        self.pad16();
    }

    fn sum(&self) -> (u128, u64) {
        self.sum()
    }

    fn rest(&self) -> &[u8] {
        self.rest()
    }

    #[inline(always)]
    fn digest(&mut self, aad_length: u64, bytes_length: u64) -> Block {
        self.pad16_and_add_two(aad_length, bytes_length);
        Block::new(*self.tag().bytes())
    }
}

// Returns the number of bits in `bytes` bytes.
#[inline(always)]
fn bits(bytes: u64) -> u64 {
    bytes.wrapping_mul(8)
}

// GHASH and POLYVAL; the lengths are in bits, and stay numbers.
impl<M: Multiply, R: Rule> TagHash for BlockHash<M, R> {
    #[inline(always)]
    fn take_in(&mut self, bytes: &[u8]) {
        self.update(bytes);
    }

    fn pad(&mut self) {
        self.pad16();
    }

    fn sum(&self) -> (u128, u64) {
        (self.sum(), 0)
    }

    fn rest(&self) -> &[u8] {
        self.rest()
    }

    #[inline(always)]
    fn digest(&mut self, aad_length: u64, bytes_length: u64) -> Block {
        R::ends_in_lengths();
        self.pad16_and_add_two(bits(aad_length), bits(bytes_length));
        self.hash()
    }
}

// The keys of a hash, by which it is made again from plain numbers.
pub(in crate::proved::aead) trait HashKeys {
    type Hash: TagHash;

    // Makes the hash of a text again from the secret of its message, its sum over the whole blocks, and the bytes after them.
    fn resumed(&self, secret: &[u8; 32], low: u128, high: u64, rest: &[u8]) -> Self::Hash;
}

// The key of Poly1305, which is among the numbers.
pub(in crate::proved::aead) struct PolyKeys;

impl HashKeys for PolyKeys {
    type Hash = Poly;

    #[inline(always)]
    fn resumed(&self, secret: &[u8; 32], low: u128, high: u64, rest: &[u8]) -> Poly {
        Poly::resumed(secret, low, high, rest)
    }
}

// A multiplier that serves GHASH or POLYVAL.
pub(in crate::proved::aead) struct BlockKeys<'a, M, R> {
    multiplier: &'a M,
    rule: PhantomData<R>,
}

impl<'a, M, R> BlockKeys<'a, M, R> {
    // The keys with this multiplier.
    #[inline(always)]
    pub(in crate::proved::aead) fn by(multiplier: &'a M) -> BlockKeys<'a, M, R> {
        BlockKeys { multiplier, rule: PhantomData }
    }
}

impl<'a, M: Multiply, R: Rule> HashKeys for BlockKeys<'a, M, R> {
    type Hash = BlockHash<&'a M, R>;

    #[inline(always)]
    fn resumed(&self, _secret: &[u8; 32], low: u128, _high: u64, rest: &[u8]) -> BlockHash<&'a M, R> {
        BlockHash::resumed(self.multiplier, low, rest)
    }
}

// Returns the first 16 bytes.
pub(in crate::proved::aead) fn first_block(bytes: &[u8; 32]) -> Block {
    let mut first = [0; 16];
    first.copy_from_slice(&bytes[..16]);
    Block::new(first)
}

// Returns the last 16 bytes.
pub(in crate::proved::aead) fn last_block(bytes: &[u8; 32]) -> Block {
    let mut last = [0; 16];
    last.copy_from_slice(&bytes[16..]);
    Block::new(last)
}
