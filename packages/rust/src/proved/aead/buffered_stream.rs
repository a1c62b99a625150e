// Made from crates/aead/src/buffered_stream.rt by tools/erase: not to be edited.
//! A ChaCha20 key stream (RFC 8439, 2.4) with its first blocks precomputed: they were made together with the block that holds
//! the key of Poly1305.

use crate::proved::aead::hashes::TagHash;
use crate::proved::aead::interleaved::{mask_first_interleaved, pays};
use crate::proved::aead::mask::MaskStream;
use crate::proved::aead::step::MaskWith;
use crate::proved::chacha::ChaStream;
use crate::proved::octets::{Key32, Nonce, Stream, xor_into};
use crate::proved::poly1305::Poly;

// The key stream from counter 1 on: first that of the precomputed blocks, and then that of the blocks after them.
pub(in crate::proved::aead) struct BufferedStream<'a> {
    // The blocks from counter 0 on.
    start: &'a [u8],
    // How many of their bytes were used.
    used: usize,
    rest: ChaStream,
}

impl<'a> BufferedStream<'a> {
    // No byte is used yet.
    pub(in crate::proved::aead) fn new(key: &Key32, nonce: &Nonce, start: &'a [u8]) -> BufferedStream<'a> {
        BufferedStream { start, used: 64, rest: ChaStream::new(key, nonce, (start.len() / 64) as u32) }
    }

    // Masks a piece and hashes it as it leaves, interleaved. This is a separate function, since its frame would slow down short
    // pieces.
    #[inline(never)]
    fn mask_first_interleaved(&mut self, hash: &mut Poly, piece: &mut [u8]) {
        let n = piece.len().min(self.start.len() - self.used);
        let (first, _) = piece.split_at_mut(n);
        xor_into(first, &self.start[self.used..self.used + n]);
        self.used += n;
        mask_first_interleaved(&mut self.rest, hash, piece, n);
    }
}

impl<'a> Stream for BufferedStream<'a> {
    fn apply_next(&mut self, bytes: &mut [u8]) {
        let n = bytes.len().min(self.start.len() - self.used);
        let (first, last) = bytes.split_at_mut(n);
        xor_into(first, &self.start[self.used..self.used + n]);
        self.used += n;
        self.rest.apply_next(last);
    }
}

impl<'a> MaskStream for BufferedStream<'a> {}

// Interleaved with the mask first alone: with the hash first, a whole message is authenticated before a byte is masked.
impl<'a> MaskWith<Poly> for BufferedStream<'a> {
    #[inline(always)]
    fn mask_first(&mut self, hash: &mut Poly, piece: &mut [u8]) {
        if pays(hash, self.start.len() - self.used, piece.len()) {
            self.mask_first_interleaved(hash, piece);
            return;
        }
        self.apply_to(piece);
        hash.take_in(piece);
    }
}
