// Made from crates/aead/src/interleaved.rt by tools/erase: not to be edited.
//! ChaCha20 and Poly1305 interleaved: a piece is masked while it is hashed, in one loop (RFC 8439, 2.8).

use crate::proved::aead::hashes::TagHash;
use crate::proved::aead::mask::MaskStream;
use crate::proved::aead::step::MaskWith;
use crate::proved::chacha::{ChaStream, interleaving_pays};
use crate::proved::octets::padded;
use crate::proved::poly1305::Poly;

// Returns whether to interleave the hash with the mask of the next `count` bytes, of which the first `ready` are made, takes less
// time than one after the other. The text that is hashed so far must consist of whole blocks.
#[inline(always)]
pub(in crate::proved::aead) fn pays(hash: &Poly, ready: usize, count: usize) -> bool {
    interleaving_pays(ready, count) && hash.rest().is_empty()
}

// Masks a piece after its first `begun` bytes, which are masked, and hashes all of it as it leaves. This is a separate function, as
// the next one is, since its frame would slow down short pieces.
#[inline(never)]
pub(in crate::proved::aead) fn mask_first_interleaved(
    mask: &mut ChaStream,
    hash: &mut Poly,
    piece: &mut [u8],
    begun: usize,
) {
    let whole = piece.len() / 16 * 16;
    let mut partial = hash.partial_sum();
    mask.apply_and_hash(piece, begun, &mut partial);
    let sum = partial.sum;
    hash.set_sum(sum);
    hash.update(&piece[whole..]);
}

// Hashes a piece as it comes, and masks it.
#[inline(never)]
fn hash_first_interleaved(mask: &mut ChaStream, hash: &mut Poly, piece: &mut [u8]) {
    let whole = piece.len() / 16 * 16;
    let count = piece.len() - whole;
    let rest = padded(&piece[whole..]);
    let mut partial = hash.partial_sum();
    mask.hash_and_apply(piece, &mut partial);
    let sum = partial.sum;
    hash.set_sum(sum);
    hash.update(&rest[..count]);
}

impl MaskWith<Poly> for ChaStream {
    #[inline(always)]
    fn mask_first(&mut self, hash: &mut Poly, piece: &mut [u8]) {
        if pays(hash, 0, piece.len()) {
            mask_first_interleaved(self, hash, piece, 0);
            return;
        }
        self.apply_to(piece);
        hash.take_in(piece);
    }

    #[inline(always)]
    fn hash_first(&mut self, hash: &mut Poly, piece: &mut [u8]) {
        if pays(hash, 0, piece.len()) {
            hash_first_interleaved(self, hash, piece);
            return;
        }
        hash.take_in(piece);
        self.apply_to(piece);
    }
}
