// Made from crates/aead/src/any.rt by tools/erase: not to be edited.
//! A cipher whose suite is chosen when the program runs: ChaCha20-Poly1305, AES-GCM or AES-GCM-SIV.

use crate::proved::aead::aead::Aead;
use crate::proved::aead::chacha_poly::{ChaChaPoly, one_time_key};
use crate::proved::aead::gcm::{Gcm, message_secret};
use crate::proved::aead::gcm_siv::GcmSiv;
use crate::proved::aead::hashes::PolyKeys;
use crate::proved::aead::pieces::aes_pass;
use crate::proved::aead::pieces::keys::{AesKeys, CipherKeys, ExpandedKey, LentMul, MessageKeys};
use crate::proved::aead::pieces::pass_state::PassState;
use crate::proved::aead::suite::{Construction, Suite};
use crate::proved::aes::AesKey;
use crate::proved::gf128::GhashOrder;
use crate::proved::octets::{Fault, Key32, Nonce, Tag};

/// A cipher of a suite whose tag is over the ciphertext, so that one reading of a text seals it.
pub enum AnyOnePass {
    /// ChaCha20-Poly1305.
    ChaCha(ChaChaPoly),
    /// AES-GCM.
    Gcm(Gcm),
}

/// A cipher of any suite.
pub enum AnyAead {
    /// ChaCha20-Poly1305 or AES-GCM, whose tag is over the ciphertext.
    OnePass(AnyOnePass),
    /// AES-GCM-SIV, whose tag is over the text.
    Siv(GcmSiv),
}

// Lends the keys of a message of AES-GCM with this nonce, with a multiplier by the hash key.
pub(in crate::proved::aead) fn gcm_keys<'a>(
    cipher: &'a Gcm,
    nonce: &Nonce,
    multiplier: LentMul<'a>,
) -> MessageKeys<'a> {
    let (key, _) = cipher.keys();
    MessageKeys { cipher: CipherKeys::Gcm(AesKeys::Expanded(ExpandedKey { key, multiplier })), nonce: *nonce.bytes() }
}

impl AnyOnePass {
    // Lends the keys of a message with this nonce.
    pub(in crate::proved::aead) fn keys<'a>(&'a self, nonce: &Nonce) -> MessageKeys<'a> {
        match self {
            AnyOnePass::ChaCha(cipher) => {
                MessageKeys { cipher: CipherKeys::ChaCha(cipher.key().bytes()), nonce: *nonce.bytes() }
            }
            AnyOnePass::Gcm(cipher) => {
                let (_, multiplier) = cipher.keys();
                gcm_keys(cipher, nonce, LentMul::Table(multiplier))
            }
        }
    }

    // Returns the initial state for this nonce and associated data.
    pub(in crate::proved::aead) fn initial_state(&self, nonce: &Nonce, aad: &[u8]) -> PassState {
        match self {
            AnyOnePass::ChaCha(cipher) => PassState::initial(&PolyKeys, one_time_key(cipher.key(), nonce), aad),
            AnyOnePass::Gcm(cipher) => {
                let (key, multiplier) = cipher.keys();
                let secret = message_secret(key, &multiplier.key(), nonce);
                aes_pass::initial_state::<GhashOrder>(secret, aad)
            }
        }
    }
}

impl AnyAead {
    /// Returns the cipher of a suite under a key. The key has 32 bytes for ChaCha20-Poly1305 and the suites of AES-256, 24 for
    /// AES-192 and 16 for AES-128; any other length is `KeyLength`, the only fault.
    #[inline(always)]
    pub fn new(suite: Suite, key: &[u8]) -> Result<AnyAead, Fault> {
        if key.len() != suite.key_length() {
            return Err(Fault::KeyLength);
        }
        match suite.construction() {
            Construction::ChaChaPoly => {
                let cipher = ChaChaPoly::new(&Key32::from_slice(key)?);
                Ok(AnyAead::OnePass(AnyOnePass::ChaCha(cipher)))
            }
            Construction::Gcm => {
                let cipher = Gcm::new(suite, AesKey::from_slice(key)?);
                Ok(AnyAead::OnePass(AnyOnePass::Gcm(cipher)))
            }
            Construction::GcmSiv => Ok(AnyAead::Siv(GcmSiv::new(suite, AesKey::from_slice(key)?))),
        }
    }
}

impl Aead for AnyOnePass {
    fn suite(&self) -> Suite {
        match self {
            AnyOnePass::ChaCha(cipher) => cipher.suite(),
            AnyOnePass::Gcm(cipher) => cipher.suite(),
        }
    }

    fn seal_fitting(&self, nonce: &Nonce, aad: &[u8], text: &mut [u8]) -> Tag {
        match self {
            AnyOnePass::ChaCha(cipher) => cipher.seal_fitting(nonce, aad, text),
            AnyOnePass::Gcm(cipher) => cipher.seal_fitting(nonce, aad, text),
        }
    }

    fn open_fitting(&self, nonce: &Nonce, aad: &[u8], body: &mut [u8], tag: &Tag) -> Result<(), Fault> {
        match self {
            AnyOnePass::ChaCha(cipher) => cipher.open_fitting(nonce, aad, body, tag),
            AnyOnePass::Gcm(cipher) => cipher.open_fitting(nonce, aad, body, tag),
        }
    }

    fn open_and_restore(&self, nonce: &Nonce, aad: &[u8], body: &mut [u8], tag: &Tag) -> Result<(), Fault> {
        match self {
            AnyOnePass::ChaCha(cipher) => cipher.open_and_restore(nonce, aad, body, tag),
            AnyOnePass::Gcm(cipher) => cipher.open_and_restore(nonce, aad, body, tag),
        }
    }
}

impl Aead for AnyAead {
    fn suite(&self) -> Suite {
        match self {
            AnyAead::OnePass(cipher) => cipher.suite(),
            AnyAead::Siv(cipher) => cipher.suite(),
        }
    }

    fn seal_fitting(&self, nonce: &Nonce, aad: &[u8], text: &mut [u8]) -> Tag {
        match self {
            AnyAead::OnePass(AnyOnePass::ChaCha(cipher)) => cipher.seal_fitting(nonce, aad, text),
            AnyAead::OnePass(AnyOnePass::Gcm(cipher)) => cipher.seal_fitting(nonce, aad, text),
            AnyAead::Siv(cipher) => cipher.seal_fitting(nonce, aad, text),
        }
    }

    fn open_fitting(&self, nonce: &Nonce, aad: &[u8], body: &mut [u8], tag: &Tag) -> Result<(), Fault> {
        match self {
            AnyAead::OnePass(AnyOnePass::ChaCha(cipher)) => cipher.open_fitting(nonce, aad, body, tag),
            AnyAead::OnePass(AnyOnePass::Gcm(cipher)) => cipher.open_fitting(nonce, aad, body, tag),
            AnyAead::Siv(cipher) => cipher.open_fitting(nonce, aad, body, tag),
        }
    }

    fn open_and_restore(&self, nonce: &Nonce, aad: &[u8], body: &mut [u8], tag: &Tag) -> Result<(), Fault> {
        match self {
            AnyAead::OnePass(AnyOnePass::ChaCha(cipher)) => cipher.open_and_restore(nonce, aad, body, tag),
            AnyAead::OnePass(AnyOnePass::Gcm(cipher)) => cipher.open_and_restore(nonce, aad, body, tag),
            AnyAead::Siv(cipher) => cipher.open_and_restore(nonce, aad, body, tag),
        }
    }
}
