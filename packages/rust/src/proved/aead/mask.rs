// Made from crates/aead/src/mask.rt by tools/erase: not to be edited.
//! The masks that texts are XORed with, each of which is made piece by piece: the key stream of ChaCha20 (RFC 8439, 2.8), and
//! the counter streams of AES-GCM (SP 800-38D, 7.1) and AES-GCM-SIV (RFC 8452, 4).

use crate::proved::aes::{Count, Ctr, FirstFour, LastFour};
use crate::proved::chacha::ChaStream;
use crate::proved::octets::Stream;

// The mask of a message, made so far up to some byte.
pub(in crate::proved::aead) trait MaskStream: Stream {
    // XORs the next bytes of the mask into `piece`.
    fn apply_to(&mut self, piece: &mut [u8]) {
        self.apply_next(piece);
    }
}

// Under ChaCha20-Poly1305 the mask is the key stream from counter 1 on (RFC 8439, 2.8).
impl MaskStream for ChaStream {}

// How the counter blocks of a construction with AES count.
pub(in crate::proved::aead) trait MaskCount: Count {}

// AES-GCM (SP 800-38D, 7.1).
impl MaskCount for LastFour {}

// AES-GCM-SIV (RFC 8452, 4).
impl MaskCount for FirstFour {}

// Under AES-GCM and AES-GCM-SIV the mask is a counter stream.
impl<'k, C: MaskCount> MaskStream for Ctr<'k, C> {}
