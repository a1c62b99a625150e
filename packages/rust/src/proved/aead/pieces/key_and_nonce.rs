// Made from crates/aead/src/pieces/key_and_nonce.rt by tools/erase: not to be edited.
//! The key and the nonce of a message as plain numbers, under any suite, for a caller that stores a message in pieces in its own memory.
//! Only the bytes of the key are stored: each step makes the key schedule and the table of the hash key that it needs.

use crate::proved::aead::chacha_poly::one_time_key;
use crate::proved::aead::derived_keys::{KeyParts, long_encryption_key, multiplier_key, short_encryption_key};
use crate::proved::aead::gcm::hash_subkey;
use crate::proved::aead::hashes::PolyKeys;
use crate::proved::aead::pieces::aes_pass;
use crate::proved::aead::pieces::keys::{AesKeys, CipherKeys, KeyBytes, MessageKeys};
use crate::proved::aead::pieces::pass_state::PassState;
use crate::proved::aead::suite::{Construction, Suite};
use crate::proved::aead::{gcm, gcm_siv};
use crate::proved::aes::AesKey;
use crate::proved::gf128::{GhashOrder, PolyvalOrder};
use crate::proved::octets::{Block, Fault, Key32, Nonce};

/// The key and the nonce of a message as plain numbers, 44 bytes. Each number may have any value.
///
/// They stand beside the state of the message, a [`PassState`] or a [`crate::proved::aead::TwoPassState`], and lend the keys for each of its steps
/// ([`KeyAndNonce::keys`]). For short pieces under the AES suites [`crate::proved::aead::Sealer`] and [`crate::proved::aead::SivAbsorb`] are faster: they have a key
/// schedule, which each step makes again here.
#[repr(C)]
#[derive(Clone, Copy)]
pub struct KeyAndNonce {
    // The key that the message is encrypted with, and zeros after it. Under AES-GCM-SIV this is the message's own encryption key.
    key: [u8; 32],
    nonce: [u8; 12],
}

impl KeyAndNonce {
    /// All zeros.
    pub fn zeros() -> KeyAndNonce {
        KeyAndNonce { key: [0; 32], nonce: [0; 12] }
    }

    // The key that the message is encrypted with, and its nonce.
    #[inline(always)]
    fn of(key: &[u8], nonce: &Nonce) -> KeyAndNonce {
        let mut padded = [0; 32];
        padded[..key.len()].copy_from_slice(key);
        KeyAndNonce { key: padded, nonce: *nonce.bytes() }
    }

    /// Lends the keys for a step of a message under its suite.
    #[inline(always)]
    pub fn keys<'a>(&'a self, suite: Suite) -> MessageKeys<'a> {
        let key = &self.key;
        let bytes = AesKeys::Bytes(KeyBytes { suite, key });
        let nonce = self.nonce;
        match suite.construction() {
            Construction::ChaChaPoly => MessageKeys { cipher: CipherKeys::ChaCha(key), nonce },
            Construction::Gcm => MessageKeys { cipher: CipherKeys::Gcm(bytes), nonce },
            Construction::GcmSiv => MessageKeys { cipher: CipherKeys::Siv(bytes), nonce },
        }
    }

    // Begins a pass under ChaCha20-Poly1305. Each construction has a function of its own, which is not inlined, since the compiler
    // clears the locals of all arms of a `match` when the function is entered.
    #[inline(never)]
    fn begin_chacha(&mut self, state: &mut PassState, key: &Key32, nonce: &Nonce, aad: &[u8]) {
        *self = KeyAndNonce::of(key.bytes(), nonce);
        *state = PassState::initial(&PolyKeys, one_time_key(key, nonce), aad);
    }

    // Begins a pass under AES-GCM.
    #[inline(never)]
    fn begin_gcm(
        &mut self,
        state: &mut PassState,
        key: &[u8],
        cipher: &AesKey,
        ghash_key: &Block,
        nonce: &Nonce,
        aad: &[u8],
    ) {
        *self = KeyAndNonce::of(key, nonce);
        *state = aes_pass::initial_state::<GhashOrder>(gcm::message_secret(cipher, ghash_key, nonce), aad);
    }

    // Begins a pass under AES-GCM-SIV, from the encryption key of the message and the key of POLYVAL's multiplier.
    fn begin_derived(&mut self, state: &mut PassState, key: &[u8], multiplier_key: &Block, nonce: &Nonce, aad: &[u8]) {
        *self = KeyAndNonce::of(key, nonce);
        *state = aes_pass::initial_state::<PolyvalOrder>(gcm_siv::message_secret(multiplier_key), aad);
    }

    // Begins a pass under AES-GCM-SIV, from the key that the message's keys are derived from.
    #[inline(never)]
    pub(in crate::proved::aead) fn begin_siv(
        &mut self,
        state: &mut PassState,
        suite: Suite,
        cipher: &AesKey,
        nonce: &Nonce,
        aad: &[u8],
    ) {
        let parts = KeyParts::new(cipher, nonce);
        let multiplier_key = multiplier_key(&parts);
        match suite {
            Suite::Aes128GcmSiv => {
                let key = short_encryption_key(&parts);
                self.begin_derived(state, &key, &multiplier_key, nonce, aad);
            }
            Suite::Aes256GcmSiv => {
                let key = long_encryption_key(&parts);
                self.begin_derived(state, &key, &multiplier_key, nonce, aad);
            }
            Suite::ChaCha20Poly1305 | Suite::Aes128Gcm | Suite::Aes192Gcm | Suite::Aes256Gcm => unreachable!(),
        }
    }

    /// Begins a message under a suite, the bytes of a key and of a nonce, and associated data: `state` becomes the initial state of a
    /// pass, of which [`crate::proved::aead::TwoPassState::first_reading`] and [`crate::proved::aead::TwoPassState::first_pass`] make those of two. What the keys
    /// and the state were before makes no difference. `KeyLength` if the key does not have the suite's length, then `NonceLength` if
    /// the nonce is not 12 bytes long, then `AadTooLong` if the data is longer than the suite's limit: the keys and the state do not
    /// change then.
    ///
    /// A nonce must never be used twice under one key to seal. Under ChaCha20-Poly1305 and AES-GCM a repeat gives away the XOR of the
    /// two texts, and enough to forge messages; under AES-GCM-SIV it gives away only whether the texts and the associated data were
    /// the same.
    pub fn begin(
        &mut self,
        state: &mut PassState,
        suite: Suite,
        key: &[u8],
        nonce: &[u8],
        aad: &[u8],
    ) -> Result<(), Fault> {
        if key.len() != suite.key_length() {
            return Err(Fault::KeyLength);
        }
        let nonce = Nonce::from_slice(nonce)?;
        suite.check_aad(aad)?;
        match suite.construction() {
            Construction::ChaChaPoly => {
                let key = Key32::from_slice(key)?;
                self.begin_chacha(state, &key, &nonce, aad);
                Ok(())
            }
            Construction::Gcm => {
                let cipher = AesKey::expanded(key);
                self.begin_gcm(state, key, &cipher, &hash_subkey(&cipher), &nonce, aad);
                Ok(())
            }
            Construction::GcmSiv => {
                self.begin_siv(state, suite, &AesKey::expanded(key), &nonce, aad);
                Ok(())
            }
        }
    }

    /// Begins a message under a suite of AES-GCM-SIV as [`KeyAndNonce::begin`] does, with the schedule of the key.
    pub fn begin_siv_by(
        &mut self,
        state: &mut PassState,
        suite: Suite,
        cipher: &AesKey,
        nonce: &[u8],
        aad: &[u8],
    ) -> Result<(), Fault> {
        let nonce = Nonce::from_slice(nonce)?;
        suite.check_aad(aad)?;
        self.begin_siv(state, suite, cipher, &nonce, aad);
        Ok(())
    }

    /// Begins a message under a suite of AES-GCM as [`KeyAndNonce::begin`] does, with the schedule of the key and the key of GHASH, which
    /// is the cipher of a block of zeros.
    pub fn begin_gcm_by(
        &mut self,
        state: &mut PassState,
        suite: Suite,
        key: &[u8],
        cipher: &AesKey,
        ghash_key: &Block,
        nonce: &[u8],
        aad: &[u8],
    ) -> Result<(), Fault> {
        let nonce = Nonce::from_slice(nonce)?;
        suite.check_aad(aad)?;
        self.begin_gcm(state, key, cipher, ghash_key, &nonce, aad);
        Ok(())
    }
}
