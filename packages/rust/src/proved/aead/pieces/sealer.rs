// Made from crates/aead/src/pieces/sealer.rt by tools/erase: not to be edited.
//! Sealing piece by piece in one reading, under the suites whose tag is over the ciphertext: ChaCha20-Poly1305 (RFC 8439)
//! and AES-GCM (SP 800-38D).

use crate::proved::aead::aead::Aead;
use crate::proved::aead::any::AnyOnePass;
use crate::proved::aead::pieces::keys::MessageKeys;
use crate::proved::aead::pieces::pass_state::PassState;
use crate::proved::aes::KnownBlock;
use crate::proved::octets::{Fault, Nonce, Tag};

/// A text that is sealed piece by piece in one reading, under a nonce and the keys that a cipher lends.
pub struct Sealer<'a> {
    keys: MessageKeys<'a>,
    state: PassState,
    // The block of AES that the text ends inside.
    known: KnownBlock,
}

impl<'a> Sealer<'a> {
    /// Begins with the empty text, under a nonce with associated data. `AadTooLong` if the data is longer than the suite's
    /// limit.
    ///
    /// The nonce must never be used twice under one key: a repeat gives away the XOR of the two texts, and enough to
    /// forge messages.
    pub fn new(cipher: &'a AnyOnePass, nonce: &Nonce, aad: &[u8]) -> Result<Sealer<'a>, Fault> {
        cipher.suite().check_aad(aad)?;
        Ok(Sealer { keys: cipher.keys(nonce), state: cipher.initial_state(nonce, aad), known: KnownBlock::none() })
    }

    /// Adds `piece`, of any length, to the text, and replaces it with its ciphertext. `TextTooLong` if the text would be longer
    /// than the suite's limit: the state and the piece do not change then.
    pub fn update(&mut self, piece: &mut [u8]) -> Result<(), Fault> {
        self.state.seal(&self.keys, &mut self.known, piece)
    }

    /// Returns the tag of the text, 16 bytes. Consumes the state.
    pub fn finish(self) -> Tag {
        let (keys, state) = (self.keys, self.state);
        state.tag_of_text(&keys)
    }
}
