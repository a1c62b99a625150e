// Made from crates/aead/src/aead.rt by tools/erase: not to be edited.
//! The trait of all ciphers: a text is sealed and opened in place, under a key, with a nonce and associated data (the
//! interface of RFC 5116, 2).

use crate::proved::aead::suite::Suite;
use crate::proved::octets::{Fault, Nonce, Tag};

/// A cipher under a key, which seals and opens a text in place. A sealing is the ciphertext, as long as the
/// text, and a tag of 16 bytes. A nonce must never be used for two sealings under one key.
///
/// [`Aead::seal_in_place`] and [`Aead::open_in_place`] compare the lengths with the limits of the suite.
/// [`Aead::seal_fitting`] and [`Aead::open_fitting`] are for a caller that has compared them: they refuse no length.
pub trait Aead {
    /// The suite.
    fn suite(&self) -> Suite;

    /// Seals `text` under a nonce with associated data, whose lengths in bytes are within [`Suite::text_limit`] and
    /// [`Suite::aad_limit`]: leaves the ciphertext in the text's place and returns the tag, 16 bytes. There is no fault.
    /// Does not allocate.
    ///
    /// The nonce must never be used twice under one key. Under ChaCha20-Poly1305 and AES-GCM a repeat gives away the XOR of
    /// the two texts, and enough to forge messages; under AES-GCM-SIV it gives away only whether the texts and the
    /// associated data were the same.
    // It returns no `Result`, which would go through memory for a short message.
    fn seal_fitting(&self, nonce: &Nonce, aad: &[u8], text: &mut [u8]) -> Tag;

    /// Opens a ciphertext and its tag, 16 bytes, under a nonce with associated data, whose lengths in bytes are within
    /// [`Suite::text_limit`] and [`Suite::aad_limit`]: leaves the text in the ciphertext's place. `TagMismatch`, the only
    /// fault, if authentication failed: every byte is then as it was. Does not allocate.
    fn open_fitting(&self, nonce: &Nonce, aad: &[u8], body: &mut [u8], tag: &Tag) -> Result<(), Fault>;

    /// Opens as [`Aead::open_fitting`] does, with the same fault, but may decrypt while it authenticates, which takes less time. If
    /// authentication fails, the bytes are encrypted again, so that every byte is as it was. Until it returns, the buffer may hold
    /// a text that is not authenticated: no one else may read it meanwhile.
    fn open_and_restore(&self, nonce: &Nonce, aad: &[u8], body: &mut [u8], tag: &Tag) -> Result<(), Fault> {
        self.open_fitting(nonce, aad, body, tag)
    }

    /// Seals `text` under a nonce with associated data: leaves the ciphertext in its place and returns the
    /// tag. Faults: `AadTooLong`, then `TextTooLong`, if a length in bytes is past the suite's limit. On
    /// error every byte is as it was. Does not allocate.
    ///
    /// The nonce must never be used twice under one key. Under ChaCha20-Poly1305 and AES-GCM a repeat gives away the XOR of
    /// the two texts, and enough to forge messages; under AES-GCM-SIV it gives away only whether the texts and the
    /// associated data were the same.
    fn seal_in_place(&self, nonce: &Nonce, aad: &[u8], text: &mut [u8]) -> Result<Tag, Fault> {
        let suite = self.suite();
        suite.check_aad(aad)?;
        suite.check_text(text)?;
        Ok(self.seal_fitting(nonce, aad, text))
    }

    /// Opens a ciphertext and its tag under a nonce with associated data: leaves the text in the
    /// ciphertext's place. Faults: `AadTooLong`, then `TextTooLong`, if a length in bytes is past the
    /// suite's limit, then `TagMismatch` if authentication failed. On error every byte is as it
    /// was. A sealing of a text is always opened, to that text. Does not allocate.
    fn open_in_place(&self, nonce: &Nonce, aad: &[u8], body: &mut [u8], tag: &Tag) -> Result<(), Fault> {
        // The proof sees the tag's length.
        let _given = tag.bytes();
        let suite = self.suite();
        suite.check_aad(aad)?;
        suite.check_text(body)?;
        self.open_fitting(nonce, aad, body, tag)
    }
}
