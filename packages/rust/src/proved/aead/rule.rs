// Made from crates/aead/src/rule.rt by tools/erase: not to be edited.
//! What AES-GCM (SP 800-38D, 7) and AES-GCM-SIV (RFC 8452, 4) do not share: the order in which the hash reads the bytes of a block, and
//! how counter blocks count and with which the mask begins.

use crate::proved::aead::mask::MaskCount;
use crate::proved::aead::{gcm, gcm_siv};
use crate::proved::aes::{FirstFour, LastFour};
use crate::proved::gf128::{GhashOrder, HashOrder, PolyvalOrder};
use crate::proved::octets::{Block, Nonce};

// What the two constructions with AES do not share.
pub(in crate::proved::aead) trait Rule: HashOrder {
    // How the counter blocks of the mask count. It also says which construction it is.
    type Count: MaskCount;

    // Returns the first counter block of the mask of the message with this tag.
    fn first_counter(nonce: &Nonce, tag: &[u8; 16]) -> Block;

    // A law for the caller's proof: the hash ends with the block of both lengths in bits. The call does nothing.
    fn ends_in_lengths();
}

// The rule of AES-GCM (SP 800-38D, 7.1).
impl Rule for GhashOrder {
    type Count = LastFour;

    #[inline(always)]
    fn first_counter(nonce: &Nonce, _tag: &[u8; 16]) -> Block {
        gcm::nonce_and_counter(nonce, 2)
    }

    fn ends_in_lengths() {}
}

// The rule of AES-GCM-SIV (RFC 8452, 4).
impl Rule for PolyvalOrder {
    type Count = FirstFour;

    #[inline(always)]
    fn first_counter(_nonce: &Nonce, tag: &[u8; 16]) -> Block {
        Block::new(gcm_siv::counter_block(tag))
    }

    fn ends_in_lengths() {}
}
