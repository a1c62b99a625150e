// Made from crates/capi/src/whole.rt by tools/erase: not to be edited.
//! The calls for C on whole messages (RFC 8439, 2.8; SP 800-38D, 7; RFC 8452, 4 and 5), in place with the tag apart, or into
//! another output. No input has room for the tag: a caller who forgot that room would lose 16 bytes of the text. A call with
//! the bytes of a key computes anew the values that depend on the key alone.

use crate::proved::aead::{Aead, BorrowedGcm, ChaChaPoly, Construction, GcmSiv, Suite, hash_subkey};
use crate::proved::aes::AesKey;
use crate::proved::capi::suites::{OUTPUT_LENGTH, UNKNOWN_SUITE};
use crate::proved::gf128::{Keyed128, TableMul};
use crate::proved::octets::{Fault, Key32, Nonce, Tag, outcome_number};

// Returns the nonce with these 12 bytes. It is not taken out of a `Result`: there it would share its first byte with the fault,
// and LLVM copies that byte by itself, so that the cipher waits for it.
#[inline(always)]
fn nonce_of(bytes: &[u8]) -> Nonce {
    Nonce::new(*bytes.as_array().unwrap())
}

// Sealing or opening a text in place, with its tag apart, once all lengths are known to fit.
pub(in crate::proved::capi) trait Direction {
    // Seals or opens with a cipher and a nonce.
    fn run<C: Aead>(cipher: &C, nonce: &Nonce, aad: &[u8], text: &mut [u8], tag: &mut [u8; 16]) -> Result<(), Fault>;
}

// A text becomes its ciphertext, and its tag is written.
pub(in crate::proved::capi) struct Sealing;

impl Direction for Sealing {
    fn run<C: Aead>(cipher: &C, nonce: &Nonce, aad: &[u8], text: &mut [u8], tag: &mut [u8; 16]) -> Result<(), Fault> {
        *tag = *cipher.seal_fitting(nonce, aad, text).bytes();
        Ok(())
    }
}

// A ciphertext becomes its text if authentication succeeds. The tag stays as it is.
pub(in crate::proved::capi) struct Opening;

impl Direction for Opening {
    fn run<C: Aead>(cipher: &C, nonce: &Nonce, aad: &[u8], text: &mut [u8], tag: &mut [u8; 16]) -> Result<(), Fault> {
        cipher.open_and_restore(nonce, aad, text, &Tag::new(*tag))
    }
}

// A suite and a key, which is given as bytes or kept in a struct.
pub(in crate::proved::capi) trait Keys {
    // The suite.
    fn suite(&self) -> Suite;

    // The bytes of the key.
    fn key(&self) -> &[u8];

    // Seals or opens with a nonce, once all lengths are known to fit.
    fn run<D: Direction>(&self, nonce: &Nonce, aad: &[u8], text: &mut [u8], tag: &mut [u8; 16]) -> Result<(), Fault>;
}

// Seals or opens under AES-GCM with the bytes of a key. It is not inlined, since the compiler clears the locals of all arms of a
// `match` when the function is entered. The multiples are no local, since one would be copied.
#[inline(never)]
fn run_gcm<D: Direction>(
    suite: Suite,
    key: &[u8],
    nonce: &Nonce,
    aad: &[u8],
    text: &mut [u8],
    tag: &mut [u8; 16],
) -> Result<(), Fault> {
    let key = AesKey::expanded(key);
    D::run(&BorrowedGcm::new(suite, &key, &TableMul::of(&hash_subkey(&key))), nonce, aad, text, tag)
}

// A suite and the bytes of a key.
struct ByBytes<'a> {
    suite: Suite,
    key: &'a [u8],
}

impl<'a> Keys for ByBytes<'a> {
    fn suite(&self) -> Suite {
        self.suite
    }

    fn key(&self) -> &[u8] {
        self.key
    }

    // Each arm makes the cipher of its suite, which is smaller than one for any suite. The function is inlined, since a short
    // message takes 5 % longer if it goes through one more frame.
    #[inline(always)]
    fn run<D: Direction>(&self, nonce: &Nonce, aad: &[u8], text: &mut [u8], tag: &mut [u8; 16]) -> Result<(), Fault> {
        let suite = self.suite;
        match suite.construction() {
            Construction::ChaChaPoly => {
                let cipher = ChaChaPoly::new(&Key32::from_slice(self.key).unwrap());
                D::run(&cipher, nonce, aad, text, tag)
            }
            Construction::Gcm => run_gcm::<D>(suite, self.key, nonce, aad, text, tag),
            Construction::GcmSiv => {
                let cipher = GcmSiv::new(suite, AesKey::expanded(self.key));
                D::run(&cipher, nonce, aad, text, tag)
            }
        }
    }
}

// Compares lengths with those of the suite. Faults, in this order: `KeyLength` if the key does not have the suite's length,
// `NonceLength` if the nonce is not 12 bytes long, `AadTooLong` if the associated data is past the suite's limit.
fn check_lengths<K: Keys>(keys: &K, nonce: &[u8], aad: &[u8]) -> Result<(), Fault> {
    // A kept key always has its suite's length, and the compiler leaves the comparison out.
    if keys.key().len() != keys.suite().key_length() {
        return Err(Fault::KeyLength);
    }
    if nonce.len() != Suite::NONCE_LENGTH {
        return Err(Fault::NonceLength);
    }
    keys.suite().check_aad(aad)
}

// Seals or opens in place, with a nonce that comes as bytes. Faults, in this order: those of `check_lengths`, `TextTooLong` if
// the text is past the suite's limit, and those of the direction. If a length does not fit, nothing is changed.
pub(in crate::proved::capi) fn run_in_place<D: Direction, K: Keys>(
    keys: &K,
    nonce: &[u8],
    aad: &[u8],
    text: &mut [u8],
    tag: &mut [u8; 16],
) -> Result<(), Fault> {
    if let Err(fault) = check_lengths(keys, nonce, aad) {
        return Err(fault);
    }
    if let Err(fault) = keys.suite().check_text(text) {
        return Err(fault);
    }
    keys.run::<D>(&nonce_of(nonce), aad, text, tag)
}

// Seals a text into an output, which has to be 16 bytes longer. Returns the status.
pub(in crate::proved::capi) fn seal_to<K: Keys>(
    keys: &K,
    nonce: &[u8],
    aad: &[u8],
    text: &[u8],
    sealed: &mut [u8],
) -> u32 {
    if let Err(fault) = check_lengths(keys, nonce, aad) {
        return outcome_number(Err(fault));
    }
    if let Err(fault) = keys.suite().check_text(text) {
        return outcome_number(Err(fault));
    }
    let Some((body, tag)) = sealed.split_last_chunk_mut() else {
        return OUTPUT_LENGTH;
    };
    if body.len() != text.len() {
        return OUTPUT_LENGTH;
    }
    body.copy_from_slice(text);
    outcome_number(keys.run::<Sealing>(&nonce_of(nonce), aad, body, tag))
}

// Opens a sealing into an output, which has to be 16 bytes shorter. Returns the status.
pub(in crate::proved::capi) fn open_to<K: Keys>(
    keys: &K,
    nonce: &[u8],
    aad: &[u8],
    sealed: &[u8],
    text: &mut [u8],
) -> u32 {
    if let Err(fault) = check_lengths(keys, nonce, aad) {
        return outcome_number(Err(fault));
    }
    let Some((body, tag)) = sealed.split_last_chunk() else {
        return outcome_number(Err(Fault::TooShort));
    };
    if let Err(fault) = keys.suite().check_text(body) {
        return outcome_number(Err(fault));
    }
    if text.len() != body.len() {
        return OUTPUT_LENGTH;
    }
    text.copy_from_slice(body);
    let mut tag = *tag;
    match keys.run::<Opening>(&nonce_of(nonce), aad, text, &mut tag) {
        Ok(()) => 0,
        Err(fault) => {
            // A caller who ignores the status must not take bytes that are not authenticated for the text.
            text.fill(0);
            outcome_number(Err(fault))
        }
    }
}

/// Seals in place (RFC 8439, 2.8; SP 800-38D, 7.1; RFC 8452, 4): `text` becomes its ciphertext, and `tag` its tag of 16 bytes.
/// Returns 0, or the first of these that applies: `UNKNOWN_SUITE` if no suite has the number, `KeyLength` if the key does not
/// have the suite's length, `NonceLength` if the nonce is not 12 bytes long, `AadTooLong` if the associated data is past the
/// suite's limit, `TextTooLong` if the text is. On each of them nothing is changed.
///
/// The nonce must never be used twice under one key. Under ChaCha20-Poly1305 and AES-GCM a repeat gives away the XOR of the two
/// texts, and enough to forge messages; under AES-GCM-SIV it gives away only whether the texts and the associated data were the
/// same.
pub fn aeadkit_seal_in_place(
    suite: u32,
    key: &[u8],
    nonce: &[u8],
    text: &mut [u8],
    aad: &[u8],
    tag: &mut [u8; 16],
) -> u32 {
    match Suite::from_number(suite) {
        Some(suite) => {
            let keys = ByBytes { suite, key };
            outcome_number(run_in_place::<Sealing, ByBytes>(&keys, nonce, aad, text, tag))
        }
        None => UNKNOWN_SUITE,
    }
}

/// Opens in place (RFC 8439, 2.8; SP 800-38D, 7.2; RFC 8452, 5): `text`, a ciphertext, becomes its text if authentication with
/// `tag`, 16 bytes, succeeds. Returns 0, or the first of these that applies: `UNKNOWN_SUITE`, `KeyLength`, `NonceLength`,
/// `AadTooLong` and `TextTooLong` as `aeadkit_seal_in_place` does, `TagMismatch` if authentication failed. On each of them
/// nothing is changed.
pub fn aeadkit_open_in_place(suite: u32, key: &[u8], nonce: &[u8], text: &mut [u8], aad: &[u8], tag: &[u8; 16]) -> u32 {
    match Suite::from_number(suite) {
        Some(suite) => {
            let keys = ByBytes { suite, key };
            let mut given = *tag;
            outcome_number(run_in_place::<Opening, ByBytes>(&keys, nonce, aad, text, &mut given))
        }
        None => UNKNOWN_SUITE,
    }
}

/// Seals a text into another output (RFC 8439, 2.8; SP 800-38D, 7.1; RFC 8452, 4): `sealed` becomes the ciphertext, followed by
/// the tag of 16 bytes. Returns 0, or the first of these that applies: `UNKNOWN_SUITE`, `KeyLength`, `NonceLength`, `AadTooLong`
/// and `TextTooLong` as `aeadkit_seal_in_place` does, `OUTPUT_LENGTH` if `sealed` is not 16 bytes longer than the text. On each
/// of them nothing is written.
///
/// The nonce must never be used twice under one key. Under ChaCha20-Poly1305 and AES-GCM a repeat gives away the XOR of the two
/// texts, and enough to forge messages; under AES-GCM-SIV it gives away only whether the texts and the associated data were the
/// same.
pub fn aeadkit_seal(suite: u32, key: &[u8], nonce: &[u8], text: &[u8], aad: &[u8], sealed: &mut [u8]) -> u32 {
    match Suite::from_number(suite) {
        Some(suite) => seal_to(&ByBytes { suite, key }, nonce, aad, text, sealed),
        None => UNKNOWN_SUITE,
    }
}

/// Opens a sealing, a ciphertext followed by its tag of 16 bytes, into another output (RFC 8439, 2.8; SP 800-38D, 7.2; RFC 8452,
/// 5): `text` becomes the text. Returns 0, or the first of these that applies: `UNKNOWN_SUITE`, `KeyLength`, `NonceLength` and
/// `AadTooLong` as `aeadkit_seal_in_place` does, `TooShort` if the sealing is shorter than a tag, `TextTooLong` if its ciphertext
/// is past the suite's limit, `OUTPUT_LENGTH` if `text` is not 16 bytes shorter than the sealing, `TagMismatch` if authentication
/// failed. On `TagMismatch` the whole of `text` is zeros; on the others nothing is written.
pub fn aeadkit_open(suite: u32, key: &[u8], nonce: &[u8], sealed: &[u8], aad: &[u8], text: &mut [u8]) -> u32 {
    match Suite::from_number(suite) {
        Some(suite) => open_to(&ByBytes { suite, key }, nonce, aad, sealed, text),
        None => UNKNOWN_SUITE,
    }
}
