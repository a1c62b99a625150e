// Made from crates/aead/src/pieces/siv.rt by tools/erase: not to be edited.
//! Sealing piece by piece in two readings under AES-GCM-SIV (RFC 8452), whose tag is over the text: the first reading gives
//! the tag, and the second one is encrypted under it.

use crate::proved::aead::aead::Aead;
use crate::proved::aead::derived_keys::SivKeys;
use crate::proved::aead::gcm_siv::GcmSiv;
use crate::proved::aead::pieces::two_pass_state::TwoPassState;
use crate::proved::aes::KnownBlock;
use crate::proved::octets::{Fault, Nonce, Tag};

/// The first reading of a text that is sealed by AES-GCM-SIV.
pub struct SivAbsorb {
    keys: SivKeys,
    state: TwoPassState,
}

impl SivAbsorb {
    /// Begins with the empty text, under a nonce with associated data. `AadTooLong` if the data is longer than the suite's
    /// limit.
    ///
    /// The nonce must never be used twice under one key: a repeat gives away whether the texts and the associated data
    /// were the same, and nothing else.
    pub fn new(cipher: &GcmSiv, nonce: &Nonce, aad: &[u8]) -> Result<SivAbsorb, Fault> {
        cipher.suite().check_aad(aad)?;
        let keys = SivKeys::new(cipher, nonce);
        let state = TwoPassState::first_reading(keys.initial_state(aad));
        Ok(SivAbsorb { keys, state })
    }

    /// Adds `piece`, of any length, to the text. `TextTooLong` if the text would be longer than the suite's limit: the state
    /// does not change then.
    pub fn update(&mut self, piece: &[u8]) -> Result<(), Fault> {
        self.state.absorb(&self.keys.keys(), piece)
    }

    /// Returns the tag of the text, 16 bytes, and the state that encrypts the second reading. Consumes the state of the first.
    pub fn finish(self) -> (Tag, SivWriter) {
        let SivAbsorb { keys, mut state } = self;
        let tag = state.begin_second_reading(&keys.keys());
        (tag, SivWriter { keys, state, known: KnownBlock::none() })
    }
}

/// The second reading of a text that is sealed by AES-GCM-SIV.
pub struct SivWriter {
    keys: SivKeys,
    state: TwoPassState,
    // The block of AES that the second text ends inside.
    known: KnownBlock,
}

impl SivWriter {
    /// Adds `piece`, of any length, to the second text, and replaces it with its ciphertext. `SourceChanged` if that text would
    /// be longer than the first: the state and the piece do not change then.
    pub fn update(&mut self, piece: &mut [u8]) -> Result<(), Fault> {
        self.state.write(&self.keys.keys(), &mut self.known, piece)
    }

    /// Returns `Ok` if the second text has the length and the tag of the first, else `SourceChanged`.
    /// Consumes the state.
    pub fn finish(self) -> Result<(), Fault> {
        self.state.end_reading(&self.keys.keys())
    }
}
