//! Keys, and the calls for a whole message.

use crate::error::result;
use crate::proved::capi::key;
use crate::proved::capi::stored_key::StoredKey;
use crate::wiped::Wiped;
use crate::{Aad, Error, NONCE_BYTES, Opener, Sealer, SivSealer, Suite, TAG_BYTES, Tag};
#[cfg(feature = "alloc")]
use alloc::{vec, vec::Vec};
use core::fmt;

/// A suite and a key, whose key schedule is computed once. Threads may share it.
///
/// It is wiped when it is dropped. A move copies it and leaves the old bytes behind, on the stack too, and [`Key::new`] returns
/// it by a move. Put it into a `Box` or an `Arc` at once, `Box::new(Key::new(suite, &bytes)?)`: it then stays in one place.
///
/// # Nonces
///
/// Never use a nonce twice under one key; no call notices it. If two texts are sealed with one nonce and key,
/// ChaCha20-Poly1305 and AES-GCM give away the XOR of the two texts, and enough to forge messages; AES-GCM-SIV gives away only
/// whether the texts and the associated data were the same. [`Suite`] says which suite to take.
#[derive(Clone)]
pub struct Key {
    suite: Suite,
    schedule: Wiped<StoredKey>,
}

impl Key {
    /// Computes the schedule of a key for a suite.
    ///
    /// # Errors
    ///
    /// `KeyLength`: `key` is not [`Suite::key_bytes`] long.
    pub fn new(suite: Suite, key: &[u8]) -> Result<Key, Error> {
        let mut schedule = Wiped::<StoredKey>::zeros();
        result(schedule.init(suite as u32, key))?;
        Ok(Key { suite, schedule })
    }

    /// Returns the suite.
    pub fn suite(&self) -> Suite {
        self.suite
    }

    /// Seals a text, and returns the ciphertext followed by the tag.
    ///
    /// # Errors
    ///
    /// The first of these that applies:
    /// - `AadTooLong`: `aad` is longer than the suite's limit
    /// - `TextTooLong`: the text is longer than the suite's limit
    #[cfg(feature = "alloc")]
    pub fn seal_to_vec(&self, nonce: &[u8; NONCE_BYTES], text: &[u8], aad: Aad<'_>) -> Result<Vec<u8>, Error> {
        let mut sealed = vec![0; text.len() + TAG_BYTES];
        self.seal(nonce, text, &mut sealed, aad)?;
        Ok(sealed)
    }

    /// Opens a ciphertext that is followed by its tag, and returns the text.
    ///
    /// # Errors
    ///
    /// The first of these that applies:
    /// - `AadTooLong`: `aad` is longer than the suite's limit
    /// - `TooShort`: `sealed` is shorter than a tag
    /// - `TextTooLong`: the text is longer than the suite's limit
    /// - `TagMismatch`: authentication failed
    #[cfg(feature = "alloc")]
    pub fn open_to_vec(&self, nonce: &[u8; NONCE_BYTES], sealed: &[u8], aad: Aad<'_>) -> Result<Vec<u8>, Error> {
        let mut text = vec![0; sealed.len().saturating_sub(TAG_BYTES)];
        self.open(nonce, sealed, &mut text, aad)?;
        Ok(text)
    }

    /// Seals a text to other memory: on success `sealed` is the ciphertext followed by the tag.
    ///
    /// # Errors
    ///
    /// The first of these that applies; then no byte is written:
    /// - `AadTooLong`: `aad` is longer than the suite's limit
    /// - `TextTooLong`: the text is longer than the suite's limit
    /// - `OutputLength`: `sealed` is not 16 bytes longer than `text`
    pub fn seal(&self, nonce: &[u8; NONCE_BYTES], text: &[u8], sealed: &mut [u8], aad: Aad<'_>) -> Result<(), Error> {
        result(key::aeadkit_seal_with(&self.schedule, nonce, text, aad.0, sealed))
    }

    /// Opens a ciphertext that is followed by its tag to other memory: on success `text` is the text.
    ///
    /// # Errors
    ///
    /// The first of these that applies. After `TagMismatch` the whole of `text` is zeros; after the others no byte is written.
    /// - `AadTooLong`: `aad` is longer than the suite's limit
    /// - `TooShort`: `sealed` is shorter than a tag
    /// - `TextTooLong`: the text is longer than the suite's limit
    /// - `OutputLength`: `text` is not 16 bytes shorter than `sealed`
    /// - `TagMismatch`: authentication failed
    pub fn open(&self, nonce: &[u8; NONCE_BYTES], sealed: &[u8], text: &mut [u8], aad: Aad<'_>) -> Result<(), Error> {
        result(key::aeadkit_open_with(&self.schedule, nonce, sealed, aad.0, text))
    }

    /// Seals a text where it stands, and returns its tag: on success `text` is the ciphertext, of the same length.
    ///
    /// # Errors
    ///
    /// The first of these that applies; then no byte is changed:
    /// - `AadTooLong`: `aad` is longer than the suite's limit
    /// - `TextTooLong`: the text is longer than the suite's limit
    pub fn seal_in_place(&self, nonce: &[u8; NONCE_BYTES], text: &mut [u8], aad: Aad<'_>) -> Result<Tag, Error> {
        let mut tag = [0; TAG_BYTES];
        result(key::aeadkit_seal_in_place_with(&self.schedule, nonce, text, aad.0, &mut tag))?;
        Ok(Tag(tag))
    }

    /// Opens a ciphertext where it stands: on success `ciphertext` is its text, of the same length.
    ///
    /// # Errors
    ///
    /// The first of these that applies; then no byte is changed:
    /// - `AadTooLong`: `aad` is longer than the suite's limit
    /// - `TextTooLong`: the ciphertext is longer than the suite's limit
    /// - `TagMismatch`: authentication failed
    pub fn open_in_place(
        &self,
        nonce: &[u8; NONCE_BYTES],
        ciphertext: &mut [u8],
        tag: &[u8; TAG_BYTES],
        aad: Aad<'_>,
    ) -> Result<(), Error> {
        result(key::aeadkit_open_in_place_with(&self.schedule, nonce, ciphertext, aad.0, tag))
    }

    /// Begins a sealing in pieces, of an empty text so far.
    ///
    /// # Errors
    ///
    /// The first of these that applies:
    /// - `UnknownSuite`: the suite is an AES-GCM-SIV, which reads a text twice: use [`Key::siv_sealer`]
    /// - `AadTooLong`: `aad` is longer than the suite's limit
    pub fn sealer(&self, nonce: &[u8; NONCE_BYTES], aad: Aad<'_>) -> Result<Sealer, Error> {
        let mut state = Wiped::zeros();
        result(key::aeadkit_sealer_init_with(&mut state, &self.schedule, nonce, aad.0))?;
        Ok(Sealer { state })
    }

    /// Begins a sealing in pieces under AES-GCM-SIV, of an empty text so far.
    ///
    /// # Errors
    ///
    /// The first of these that applies:
    /// - `UnknownSuite`: the suite is not an AES-GCM-SIV, and reads a text once: use [`Key::sealer`]
    /// - `AadTooLong`: `aad` is longer than the suite's limit
    pub fn siv_sealer(&self, nonce: &[u8; NONCE_BYTES], aad: Aad<'_>) -> Result<SivSealer, Error> {
        let mut state = Wiped::zeros();
        result(key::aeadkit_siv_init_with(&mut state, &self.schedule, nonce, aad.0))?;
        Ok(SivSealer { state })
    }

    /// Begins an opening in pieces, under any suite, of a ciphertext with this tag.
    ///
    /// # Errors
    ///
    /// `AadTooLong`: `aad` is longer than the suite's limit.
    pub fn opener(&self, nonce: &[u8; NONCE_BYTES], tag: &[u8; TAG_BYTES], aad: Aad<'_>) -> Result<Opener, Error> {
        let mut state = Wiped::zeros();
        result(key::aeadkit_opener_init_with(&mut state, &self.schedule, nonce, aad.0, tag))?;
        Ok(Opener { state })
    }
}

/// Shows the suite and not the key.
impl fmt::Debug for Key {
    fn fmt(&self, f: &mut fmt::Formatter<'_>) -> fmt::Result {
        write!(f, "Key({:?})", self.suite)
    }
}
