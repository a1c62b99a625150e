// Made from crates/aead/src/pieces/opener.rt by tools/erase: not to be edited.
//! Opening piece by piece in two passes, under any suite. The first pass over the ciphertext returns no text; only if it was over
//! a valid sealing does a second pass decrypt.

use crate::proved::aead::aead::Aead;
use crate::proved::aead::any::AnyAead;
use crate::proved::aead::pieces::key_and_nonce::KeyAndNonce;
use crate::proved::aead::pieces::keys::MessageKeys;
use crate::proved::aead::pieces::pass_state::PassState;
use crate::proved::aead::pieces::two_pass_state::TwoPassState;
use crate::proved::aead::suite::Suite;
use crate::proved::aes::KnownBlock;
use crate::proved::octets::{Fault, Nonce, Tag};

// The keys of a message that is opened: a cipher lends them, or they are the message's own.
#[derive(Clone, Copy)]
pub(in crate::proved::aead) enum OpenerKeys<'a> {
    OnePass(MessageKeys<'a>),
    Siv(Suite, KeyAndNonce),
}

impl<'a> OpenerKeys<'a> {
    // Lends the keys for a step.
    fn keys<'b>(&'b self) -> MessageKeys<'b> {
        match self {
            OpenerKeys::OnePass(keys) => *keys,
            OpenerKeys::Siv(suite, own) => own.keys(*suite),
        }
    }
}

// The keys of the message with this nonce, and the initial state for associated data.
fn keys_and_state<'a>(cipher: &'a AnyAead, nonce: &Nonce, aad: &[u8]) -> (OpenerKeys<'a>, PassState) {
    match cipher {
        AnyAead::OnePass(cipher) => (OpenerKeys::OnePass(cipher.keys(nonce)), cipher.initial_state(nonce, aad)),
        AnyAead::Siv(cipher) => {
            let suite = cipher.suite();
            let mut own = KeyAndNonce::zeros();
            let mut state = PassState::zeros();
            own.begin_siv(&mut state, suite, cipher.key(), nonce, aad);
            (OpenerKeys::Siv(suite, own), state)
        }
    }
}

/// The first pass over a ciphertext that is opened under the tag of its sealing.
pub struct Opener<'a> {
    keys: OpenerKeys<'a>,
    state: TwoPassState,
}

impl<'a> Opener<'a> {
    /// Begins the first pass, under a nonce with associated data and the tag of the sealing. `AadTooLong` if the data is longer
    /// than the suite's limit.
    pub fn new(cipher: &'a AnyAead, nonce: &Nonce, aad: &[u8], tag: &Tag) -> Result<Opener<'a>, Fault> {
        cipher.suite().check_aad(aad)?;
        let (keys, pass) = keys_and_state(cipher, nonce, aad);
        let state = TwoPassState::first_pass(pass, tag.bytes());
        Ok(Opener { keys, state })
    }

    /// Authenticates a piece of the ciphertext, of any length. `TextTooLong` if the ciphertext would be longer than the suite's
    /// limit: the state does not change then.
    pub fn update(&mut self, piece: &[u8]) -> Result<(), Fault> {
        self.state.check(&self.keys.keys(), piece)
    }

    /// Returns the state of the second pass if the bytes of the first pass and the tag are a valid sealing. `TagMismatch` if
    /// authentication failed. Consumes the state of the first pass.
    pub fn finish(self) -> Result<OpenWriter<'a>, Fault> {
        let (keys, mut state) = (self.keys, self.state);
        match state.begin_second_pass(&keys.keys()) {
            Ok(()) => Ok(OpenWriter { keys, state, known: KnownBlock::none() }),
            Err(fault) => Err(fault),
        }
    }
}

/// The second pass over a ciphertext that is opened, after a first one that was over a valid sealing.
pub struct OpenWriter<'a> {
    keys: OpenerKeys<'a>,
    state: TwoPassState,
    // The block of AES that the ciphertext ends inside.
    known: KnownBlock,
}

impl<'a> OpenWriter<'a> {
    /// Replaces a piece of the ciphertext, of any length, with its text. `SourceChanged` if the second pass would be longer than the
    /// first: the state and the piece do not change then.
    pub fn update(&mut self, piece: &mut [u8]) -> Result<(), Fault> {
        self.state.open(&self.keys.keys(), &mut self.known, piece)
    }

    /// Returns `Ok` if the second pass was over the ciphertext of the sealing, else `SourceChanged`: the text that `update` wrote
    /// must then be thrown away. Consumes the state.
    pub fn finish(self) -> Result<(), Fault> {
        let (keys, state) = (self.keys, self.state);
        state.end_pass(&keys.keys())
    }
}
