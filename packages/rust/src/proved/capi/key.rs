// Made from crates/capi/src/key.rt by tools/erase: not to be edited.
//! The calls for C on a key that is kept between messages. The values that depend on the key alone are computed once.

use crate::proved::aead::{BorrowedGcm, ChaChaPoly, Construction, GcmSiv, KeyAndNonce, PassState, Suite};
use crate::proved::capi::opener::StoredOpener;
use crate::proved::capi::sealer::StoredSealer;
use crate::proved::capi::siv::StoredSiv;
use crate::proved::capi::stored_key::{KEY, KeyNumbers, StoredKey};
use crate::proved::capi::suites::{NOT_BEGUN, UNKNOWN_SUITE, is_siv, marked};
use crate::proved::capi::whole::{Direction, Keys, Opening, Sealing, open_to, run_in_place, seal_to};
use crate::proved::octets::{Fault, Key32, Nonce, outcome_number};

// Seals or opens under a kept key of AES-GCM. It is not inlined, since the compiler clears the locals of all arms of a `match` when the
// function is entered, and a key is 248 bytes.
#[inline(never)]
fn run_gcm_by_kept<D: Direction>(
    kept: &StoredKey,
    suite: Suite,
    nonce: &Nonce,
    aad: &[u8],
    text: &mut [u8],
    tag: &mut [u8; 16],
) -> Result<(), Fault> {
    let key = kept.aes(suite);
    let cipher = BorrowedGcm::new(suite, &key, kept.multiplier(suite));
    D::run(&cipher, nonce, aad, text, tag)
}

// Seals or opens under a kept key of AES-GCM-SIV. It is not inlined, as `run_gcm_by_kept`.
#[inline(never)]
fn run_siv_by_kept<D: Direction>(
    kept: &StoredKey,
    suite: Suite,
    nonce: &Nonce,
    aad: &[u8],
    text: &mut [u8],
    tag: &mut [u8; 16],
) -> Result<(), Fault> {
    let cipher = GcmSiv::new(suite, kept.aes(suite));
    D::run(&cipher, nonce, aad, text, tag)
}

// Seals or opens under a kept key with a nonce, once all lengths are known to fit.
fn run_by_kept<D: Direction>(
    kept: &StoredKey,
    suite: Suite,
    nonce: &Nonce,
    aad: &[u8],
    text: &mut [u8],
    tag: &mut [u8; 16],
) -> Result<(), Fault> {
    match suite.construction() {
        Construction::ChaChaPoly => {
            let cipher = ChaChaPoly::new(&Key32::new(kept.numbers.key));
            D::run(&cipher, nonce, aad, text, tag)
        }
        Construction::Gcm => run_gcm_by_kept::<D>(kept, suite, nonce, aad, text, tag),
        Construction::GcmSiv => run_siv_by_kept::<D>(kept, suite, nonce, aad, text, tag),
    }
}

// A kept key of this suite.
struct ByKept<'a> {
    suite: Suite,
    kept: &'a StoredKey,
}

impl<'a> Keys for ByKept<'a> {
    fn suite(&self) -> Suite {
        self.suite
    }

    fn key(&self) -> &[u8] {
        self.kept.key(self.suite)
    }

    fn run<D: Direction>(&self, nonce: &Nonce, aad: &[u8], text: &mut [u8], tag: &mut [u8; 16]) -> Result<(), Fault> {
        run_by_kept::<D>(self.kept, self.suite, nonce, aad, text, tag)
    }
}

// Begins a message under a kept key and the bytes of a nonce: `state` becomes the initial state of a pass.
#[inline(always)]
fn begin_by_kept(
    keys: &mut KeyAndNonce,
    state: &mut PassState,
    kept: &StoredKey,
    suite: Suite,
    nonce: &[u8],
    aad: &[u8],
) -> Result<(), Fault> {
    let key = &kept.numbers.key[..suite.key_length()];
    match suite.construction() {
        Construction::ChaChaPoly => keys.begin(state, suite, key, nonce, aad),
        Construction::Gcm => {
            let (cipher, ghash_key) = (kept.aes(suite), kept.ghash_key(suite));
            keys.begin_gcm_by(state, suite, key, &cipher, &ghash_key, nonce, aad)
        }
        Construction::GcmSiv => keys.begin_siv_by(state, suite, &kept.aes(suite), nonce, aad),
    }
}

/// Leaves zeros in the struct, whatever bytes it held: it then keeps neither a key nor a value that depends on one.
pub fn aeadkit_key_wipe(kept: &mut KeyNumbers) {
    *kept = KeyNumbers::zeros();
}

/// Puts a key of a suite into the struct, with the values that the suite needs and that depend on the key alone: the schedule of
/// AES under AES-GCM and AES-GCM-SIV, and the key of GHASH and its multiples under AES-GCM. All else is zeros. What the struct held
/// before makes no difference. Returns 0, or the first of these that applies: `UNKNOWN_SUITE` if no suite has the number,
/// `KeyLength` if the key does not have the suite's length. On both, zeros are left in the struct, which then keeps no key.
pub fn aeadkit_key_init(kept: &mut KeyNumbers, suite: u32, key: &[u8]) -> u32 {
    aeadkit_key_wipe(kept);
    let Some(suite) = Suite::from_number(suite) else {
        return UNKNOWN_SUITE;
    };
    if key.len() != suite.key_length() {
        return outcome_number(Err(Fault::KeyLength));
    }
    *kept = StoredKey::new(suite, key).numbers;
    outcome_number(Ok(()))
}

/// Seals in place under a kept key, as `aeadkit_seal_in_place` does under the bytes of a key. Returns 0, or the first of these
/// that applies: `NOT_BEGUN` if the struct keeps no key, `NonceLength`, `AadTooLong`, `TextTooLong`. On each of them nothing is
/// changed.
///
/// The nonce must never be used twice under one key. Under ChaCha20-Poly1305 and AES-GCM a repeat gives away the XOR of the two
/// texts, and enough to forge messages; under AES-GCM-SIV it gives away only whether the texts and the associated data were the
/// same.
pub fn aeadkit_seal_in_place_with(
    kept: &StoredKey,
    nonce: &[u8],
    text: &mut [u8],
    aad: &[u8],
    tag: &mut [u8; 16],
) -> u32 {
    match marked(KEY, kept.numbers.mark) {
        Some(suite) => {
            let keys = ByKept { suite, kept };
            outcome_number(run_in_place::<Sealing, ByKept>(&keys, nonce, aad, text, tag))
        }
        None => NOT_BEGUN,
    }
}

/// Opens in place under a kept key, as `aeadkit_open_in_place` does under the bytes of a key. Returns 0, or the first of these
/// that applies: `NOT_BEGUN` if the struct keeps no key, `NonceLength`, `AadTooLong`, `TextTooLong`, `TagMismatch`. On each of
/// them nothing is changed.
pub fn aeadkit_open_in_place_with(kept: &StoredKey, nonce: &[u8], text: &mut [u8], aad: &[u8], tag: &[u8; 16]) -> u32 {
    match marked(KEY, kept.numbers.mark) {
        Some(suite) => {
            let keys = ByKept { suite, kept };
            let mut given = *tag;
            outcome_number(run_in_place::<Opening, ByKept>(&keys, nonce, aad, text, &mut given))
        }
        None => NOT_BEGUN,
    }
}

/// Seals a text into another output under a kept key, as `aeadkit_seal` does under the bytes of a key. Returns 0, or the first of
/// these that applies: `NOT_BEGUN` if the struct keeps no key, `NonceLength`, `AadTooLong`, `TextTooLong`, `OUTPUT_LENGTH`. On
/// each of them nothing is written.
///
/// The nonce must never be used twice under one key. Under ChaCha20-Poly1305 and AES-GCM a repeat gives away the XOR of the two
/// texts, and enough to forge messages; under AES-GCM-SIV it gives away only whether the texts and the associated data were the
/// same.
pub fn aeadkit_seal_with(kept: &StoredKey, nonce: &[u8], text: &[u8], aad: &[u8], sealed: &mut [u8]) -> u32 {
    match marked(KEY, kept.numbers.mark) {
        Some(suite) => seal_to(&ByKept { suite, kept }, nonce, aad, text, sealed),
        None => NOT_BEGUN,
    }
}

/// Opens a sealing into another output under a kept key, as `aeadkit_open` does under the bytes of a key. Returns 0, or the first
/// of these that applies: `NOT_BEGUN` if the struct keeps no key, `NonceLength`, `AadTooLong`, `TooShort`, `TextTooLong`,
/// `OUTPUT_LENGTH`, `TagMismatch`. On `TagMismatch` the whole of `text` is zeros; on the others nothing is written.
pub fn aeadkit_open_with(kept: &StoredKey, nonce: &[u8], sealed: &[u8], aad: &[u8], text: &mut [u8]) -> u32 {
    match marked(KEY, kept.numbers.mark) {
        Some(suite) => open_to(&ByKept { suite, kept }, nonce, aad, sealed, text),
        None => NOT_BEGUN,
    }
}

/// Begins a sealing in pieces under a kept key, as `aeadkit_sealer_init` does under the bytes of a key. What the sealer held
/// before makes no difference. Returns 0, or the first of these that applies: `NOT_BEGUN` if the struct keeps no key,
/// `UNKNOWN_SUITE` if its suite is one of AES-GCM-SIV, which reads a text twice, `NonceLength`, `AadTooLong`. On each of them
/// zeros are left in the sealer.
///
/// The nonce must never be used twice under one key: a repeat gives away the XOR of the two texts, and enough to forge messages.
pub fn aeadkit_sealer_init_with(sealer: &mut StoredSealer, kept: &StoredKey, nonce: &[u8], aad: &[u8]) -> u32 {
    *sealer = StoredSealer::zeros();
    let Some(suite) = marked(KEY, kept.numbers.mark) else {
        return NOT_BEGUN;
    };
    if is_siv(suite) {
        return UNKNOWN_SUITE;
    }
    let begun = begin_by_kept(&mut sealer.keys, &mut sealer.state, kept, suite, nonce, aad);
    sealer.note_begun(suite, begun)
}

/// Begins an opening in pieces under a kept key, as `aeadkit_opener_init` does under the bytes of a key. What the opener held
/// before makes no difference. Returns 0, or the first of these that applies: `NOT_BEGUN` if the struct keeps no key,
/// `NonceLength`, `AadTooLong`. On each of them zeros are left in the opener.
pub fn aeadkit_opener_init_with(
    opener: &mut StoredOpener,
    kept: &StoredKey,
    nonce: &[u8],
    aad: &[u8],
    tag: &[u8; 16],
) -> u32 {
    *opener = StoredOpener::zeros();
    let Some(suite) = marked(KEY, kept.numbers.mark) else {
        return NOT_BEGUN;
    };
    let begun = begin_by_kept(&mut opener.keys, &mut opener.state.pass, kept, suite, nonce, aad);
    opener.note_begun(suite, begun, tag)
}

/// Begins a sealing in two readings under a kept key, as `aeadkit_siv_init` does under the bytes of a key. What `siv` held before
/// makes no difference. Returns 0, or the first of these that applies: `NOT_BEGUN` if the struct keeps no key, `UNKNOWN_SUITE` if
/// its suite is not one of AES-GCM-SIV, `NonceLength`, `AadTooLong`. On each of them zeros are left in `siv`.
///
/// The nonce must never be used twice under one key: a repeat gives away whether the texts and the associated data were the same,
/// and nothing else.
pub fn aeadkit_siv_init_with(siv: &mut StoredSiv, kept: &StoredKey, nonce: &[u8], aad: &[u8]) -> u32 {
    *siv = StoredSiv::zeros();
    let Some(suite) = marked(KEY, kept.numbers.mark) else {
        return NOT_BEGUN;
    };
    if !is_siv(suite) {
        return UNKNOWN_SUITE;
    }
    let begun = begin_by_kept(&mut siv.keys, &mut siv.state.pass, kept, suite, nonce, aad);
    siv.note_begun(suite, begun)
}

/// Returns the size of the struct that keeps a key: 808 bytes.
pub fn aeadkit_key_size() -> usize {
    size_of::<StoredKey>()
}
