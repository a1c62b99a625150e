// Made from crates/capi/src/stored_key.rt by tools/erase: not to be edited.
//! A key that a caller in C keeps in its memory, with the values that depend on the key alone.

use crate::proved::aead::{Construction, Suite, hash_subkey};
use crate::proved::aes::AesKey;
use crate::proved::capi::suites::mark_of;
use crate::proved::gf128::{Keyed128, PlainMul, PlainMultiples, TableMul};
use crate::proved::octets::Block;

// The number of this kind of struct: `cipher` in ASCII, and the version of its layout. A mark is this number plus the suite's.
pub(in crate::proved::capi) const KEY: u64 = 0x6369_7068_6572_0200;

/// The numbers of a struct that may keep a key. Each may have any value.
#[repr(C)]
#[derive(Clone, Copy)]
pub struct KeyNumbers {
    // The mark of a kept key of a suite; any other number if no key is kept.
    pub(in crate::proved::capi) mark: u64,
    // The key, and zeros after it.
    pub(in crate::proved::capi) key: [u8; 32],
    // The schedule of AES under the key, and zeros after it. Under ChaCha20-Poly1305 all of it is zeros.
    ready_keys: [[u8; 16]; 15],
    // The key of GHASH, and its multiples, under AES-GCM. Under ChaCha20-Poly1305 they are zeros, and also under AES-GCM-SIV, which
    // derives another hash key for each nonce.
    ghash_key: [u8; 16],
    multiples: PlainMultiples,
}

impl KeyNumbers {
    // Returns numbers that are all zero. They keep no key.
    pub(in crate::proved::capi) fn zeros() -> KeyNumbers {
        KeyNumbers {
            mark: 0,
            key: [0; 32],
            ready_keys: [[0; 16]; 15],
            ghash_key: [0; 16],
            multiples: PlainMultiples::zeros(),
        }
    }

    // Returns the numbers that keep a key, whose bytes have the suite's length, without the values that depend on it: zeros are in
    // their place.
    fn of_key(suite: Suite, key: &[u8]) -> KeyNumbers {
        let mut padded = [0; 32];
        padded[..key.len()].copy_from_slice(key);
        KeyNumbers {
            mark: mark_of(KEY, suite),
            key: padded,
            ready_keys: [[0; 16]; 15],
            ghash_key: [0; 16],
            multiples: PlainMultiples::zeros(),
        }
    }
}

/// A key of a suite with the values that the suite needs and that depend on the key alone, in 808 bytes: the schedule of AES if the
/// suite has AES, and the key of GHASH and its multiples under AES-GCM. The others are zeros. The caller in C has to see to it that a
/// struct with the mark of a suite is as `aeadkit_key_init` left it. A struct with any other mark is refused.
// To check a schedule or multiples, a call would have to make them again.
#[repr(C)]
#[derive(Clone, Copy)]
pub struct StoredKey {
    pub(in crate::proved::capi) numbers: KeyNumbers,
}

impl StoredKey {
    // Makes the struct that keeps a key of ChaCha20-Poly1305, which needs nothing else.
    fn of_chacha(suite: Suite, key: &[u8]) -> StoredKey {
        let numbers = KeyNumbers::of_key(suite, key);
        StoredKey { numbers }
    }

    // Makes the struct that keeps a key of AES-GCM, with the schedule, the key of GHASH and its multiples.
    fn of_gcm(suite: Suite, key: &[u8]) -> StoredKey {
        let mut numbers = KeyNumbers::of_key(suite, key);
        let aes = AesKey::expanded(key);
        let ghash_key = hash_subkey(&aes);
        numbers.ready_keys = aes.ready_keys();
        let bytes = *ghash_key.bytes();
        numbers.ghash_key = bytes;
        numbers.multiples = TableMul::of(&ghash_key).plain_multiples();
        StoredKey { numbers }
    }

    // Makes the struct that keeps a key of AES-GCM-SIV, with the schedule.
    fn of_siv(suite: Suite, key: &[u8]) -> StoredKey {
        let mut numbers = KeyNumbers::of_key(suite, key);
        numbers.ready_keys = AesKey::expanded(key).ready_keys();
        StoredKey { numbers }
    }

    // Makes the struct that keeps a key, whose bytes have the suite's length.
    pub(in crate::proved::capi) fn new(suite: Suite, key: &[u8]) -> StoredKey {
        match suite.construction() {
            Construction::ChaChaPoly => StoredKey::of_chacha(suite, key),
            Construction::Gcm => StoredKey::of_gcm(suite, key),
            Construction::GcmSiv => StoredKey::of_siv(suite, key),
        }
    }

    // Returns the bytes of the key, as many as the suite's keys have.
    #[inline(always)]
    pub(in crate::proved::capi) fn key(&self, suite: Suite) -> &[u8] {
        &self.numbers.key[..suite.key_length()]
    }

    // Returns AES under the key, if the suite has AES. It copies the schedule: a borrowed one is no faster.
    #[inline(always)]
    pub(in crate::proved::capi) fn aes(&self, suite: Suite) -> AesKey {
        AesKey::from_ready_keys(&self.numbers.ready_keys, &self.numbers.key[..suite.key_length()])
    }

    // Returns the key of GHASH, under AES-GCM.
    #[inline(always)]
    pub(in crate::proved::capi) fn ghash_key(&self, _suite: Suite) -> Block {
        Block::new(self.numbers.ghash_key)
    }

    // Returns the multiplier by the key of GHASH, under AES-GCM.
    #[inline(always)]
    pub(in crate::proved::capi) fn multiplier<'a>(&'a self, suite: Suite) -> PlainMul<'a> {
        PlainMul::new(&self.ghash_key(suite), &self.numbers.multiples)
    }
}
