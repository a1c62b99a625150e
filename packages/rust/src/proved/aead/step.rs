// Made from crates/aead/src/step.rt by tools/erase: not to be edited.
//! A mask and a hash over one piece, in one of two orders: with the mask first, the masked bytes are authenticated; with the hash
//! first, the bytes as they were before. Nothing else in the crate decides by the order.

use crate::proved::aead::authenticator::Authenticator;
use crate::proved::aead::hashes::TagHash;
use crate::proved::aead::mask::{MaskCount, MaskStream};
use crate::proved::aead::rule::Rule;
use crate::proved::aes::Ctr;
use crate::proved::gf128::{BlockHash, Multiply};

// Which of two comes first: with the mask first, the masked bytes are hashed; with the hash first, the bytes as they come.
#[derive(Clone, Copy)]
pub(in crate::proved::aead) enum Order {
    // The bytes are hashed as they leave: a sealing.
    MaskFirst,
    // The bytes are hashed as they come: an opening.
    HashFirst,
}

// A mask with the hash of its construction. By default one goes over a piece after the other; those that are interleaved where this
// takes less time say so.
pub(in crate::proved::aead) trait MaskWith<H: TagHash>: MaskStream {
    // Masks a piece, and hashes it as it leaves.
    #[inline(always)]
    fn mask_first(&mut self, hash: &mut H, piece: &mut [u8]) {
        self.apply_to(piece);
        hash.take_in(piece);
    }

    // Hashes a piece as it comes, and masks it.
    #[inline(always)]
    fn hash_first(&mut self, hash: &mut H, piece: &mut [u8]) {
        hash.take_in(piece);
        self.apply_to(piece);
    }
}

impl<'k, C: MaskCount, M: Multiply, R: Rule> MaskWith<BlockHash<M, R>> for Ctr<'k, C> {}

// Masks a piece and authenticates it. Where the order is a constant, as it is in every call on a whole message, nothing of the
// choice is left in the program. It is not a type, which every function that passes it on would have to name.
#[inline(always)]
pub(in crate::proved::aead) fn step<S: MaskWith<H>, H: TagHash>(
    order: Order,
    mask: &mut S,
    authenticator: &mut Authenticator<H>,
    piece: &mut [u8],
) {
    match order {
        Order::MaskFirst => {
            mask.mask_first(&mut authenticator.hash, piece);
            authenticator.length += piece.len() as u64;
        }
        Order::HashFirst => {
            mask.hash_first(&mut authenticator.hash, piece);
            authenticator.length += piece.len() as u64;
        }
    }
}
