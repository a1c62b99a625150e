// Made from crates/gf128/src/hash_order.rt by tools/erase: not to be edited.
//! The order in which a hash reads the bytes of a block: GHASH begins with the first byte (SP 800-38D, 6.3), POLYVAL with the
//! last (RFC 8452, 3).

use crate::proved::octets::Block;

/// The order in which a hash reads the bytes of a block.
pub trait HashOrder {
    /// Returns the word of a block.
    fn word_of(block: &[u8; 16]) -> u128;

    /// Returns the bytes of the word of a block, the least significant one first.
    fn word_bytes(block: &[u8; 16]) -> [u8; 16];

    /// Returns the word of a block of two numbers of 8 bytes each. Under GHASH each has its most significant byte first (SP 800-38D,
    /// 7.1), under POLYVAL its least significant one (RFC 8452, 4).
    fn word_of_two(first: u64, second: u64) -> u128;

    /// Returns the hash of blocks from their sum, which is a word.
    fn hash_of(sum: u128) -> Block;

    /// Returns the key of the multiplier that serves the hash under `key`.
    fn multiplier_key(key: &Block) -> Block;
}
