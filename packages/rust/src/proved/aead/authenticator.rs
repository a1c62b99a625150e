// Made from crates/aead/src/authenticator.rt by tools/erase: not to be edited.
//! The authenticator of a message, which makes the hash that its tag is made of. It hashes the associated data, padded with zeros to whole blocks; then
//! the ciphertext, or under AES-GCM-SIV the text, which may come in pieces and is padded in the same way; and at the end both
//! lengths (RFC 8439, 2.8; SP 800-38D, 7.1; RFC 8452, 4).

use crate::proved::aead::hashes::TagHash;
use crate::proved::octets::Block;

// The hash of the associated data and of the bytes after it, and both lengths so far.
pub(in crate::proved::aead) struct Authenticator<H> {
    pub(in crate::proved::aead) hash: H,
    pub(in crate::proved::aead) aad_length: u64,
    // The bytes after the associated data, so far.
    pub(in crate::proved::aead) length: u64,
}

impl<H: TagHash> Authenticator<H> {
    // Returns the authenticator of a message of which nothing was hashed.
    #[inline(always)]
    pub(in crate::proved::aead) fn empty(hash: H) -> Authenticator<H> {
        Authenticator { hash, aad_length: 0, length: 0 }
    }

    // Hashes the associated data, which comes first. This is a method of a state that is in its place already, since a state
    // that is returned is copied.
    #[inline(always)]
    pub(in crate::proved::aead) fn begin(&mut self, aad: &[u8]) {
        self.aad_length = aad.len() as u64;
        if aad.is_empty() {
            return;
        }
        self.hash.take_in(aad);
        self.hash.pad();
    }

    // Hashes the next bytes of the ciphertext or the text.
    #[inline(always)]
    pub(in crate::proved::aead) fn update(&mut self, bytes: &[u8]) {
        self.hash.take_in(bytes);
        self.length += bytes.len() as u64;
    }

    // Returns the hash, of which the tag is made. The authenticator must not be used afterwards.
    #[inline(always)]
    pub(in crate::proved::aead) fn digest(&mut self) -> Block {
        self.hash.digest(self.aad_length, self.length)
    }

    // Returns the hash, of which the tag is made, and consumes the authenticator.
    #[inline(always)]
    pub(in crate::proved::aead) fn finish(mut self) -> Block {
        self.digest()
    }
}
