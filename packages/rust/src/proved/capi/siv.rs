// Made from crates/capi/src/siv.rt by tools/erase: not to be edited.
//! The calls for C that seal a text in pieces in two readings, under AES-GCM-SIV (RFC 8452, 4): the first reading gives the tag,
//! and the second one encrypts the text.

use crate::proved::aead::{KeyAndNonce, Suite, TwoPassState};
use crate::proved::aes::KnownBlock;
use crate::proved::capi::suites::{NOT_BEGUN, UNKNOWN_SUITE, is_siv, mark_of, siv_marked};
use crate::proved::octets::{Fault, outcome_number};

// The number of this kind of struct in the first reading: `sivone` in ASCII, and the version of its layout. A mark is this number
// plus the suite's.
const ABSORBING: u64 = 0x7369_766f_6e65_0200;

// The number of this kind of struct in the second reading: `sivtwo` in ASCII, and the version of its layout.
const WRITING: u64 = 0x7369_7674_776f_0200;

/// A sealing in pieces in two readings, 192 bytes. Each of its numbers may have any value.
#[repr(C)]
#[derive(Clone, Copy)]
pub struct StoredSiv {
    // The mark of a sealing in one of its readings, under a suite; any other number if no sealing is begun.
    mark: u64,
    pub(in crate::proved::capi) keys: KeyAndNonce,
    // The bytes between the nonce and the numbers, so that no byte of the struct is left out of what is promised.
    reserved: u32,
    pub(in crate::proved::capi) state: TwoPassState,
}

impl StoredSiv {
    // Returns a struct of zeros. It holds no sealing.
    pub(in crate::proved::capi) fn zeros() -> StoredSiv {
        StoredSiv { mark: 0, keys: KeyAndNonce::zeros(), reserved: 0, state: TwoPassState::zeros() }
    }

    // Marks the struct if the message was begun in it: the first reading begins. If that was refused, the struct stays zeros. Returns
    // the status.
    #[inline(always)]
    pub(in crate::proved::capi) fn note_begun(&mut self, suite: Suite, begun: Result<(), Fault>) -> u32 {
        match begun {
            Ok(()) => {
                self.mark = mark_of(ABSORBING, suite);
                self.state = TwoPassState::first_reading(self.state.pass);
                outcome_number(Ok(()))
            }
            Err(fault) => outcome_number(Err(fault)),
        }
    }
}

/// Begins the first reading of a sealing (RFC 8452, 4), which then holds the empty text. What the struct held before makes no
/// difference. Returns 0, or the first of these that applies: `UNKNOWN_SUITE` if the number is not that of a suite of
/// AES-GCM-SIV, `KeyLength` if the key does not have the suite's length, `NonceLength` if the nonce is not 12 bytes long,
/// `AadTooLong` if the associated data is past the suite's limit. On each of them zeros are left in the struct.
///
/// The nonce must never be used twice under one key: a repeat gives away whether the texts and the associated data were the same,
/// and nothing else.
pub fn aeadkit_siv_init(siv: &mut StoredSiv, suite: u32, key: &[u8], nonce: &[u8], aad: &[u8]) -> u32 {
    *siv = StoredSiv::zeros();
    let Some(suite) = Suite::from_number(suite) else {
        return UNKNOWN_SUITE;
    };
    if !is_siv(suite) {
        return UNKNOWN_SUITE;
    }
    let begun = siv.keys.begin(&mut siv.state.pass, suite, key, nonce, aad);
    siv.note_begun(suite, begun)
}

/// Takes in a piece of the text, of any length, in the first reading. Returns 0, `NOT_BEGUN` if the struct is not in its first
/// reading, or `TextTooLong` if the text would be past the suite's limit. On both, the struct is as before.
pub fn aeadkit_siv_absorb(siv: &mut StoredSiv, piece: &[u8]) -> u32 {
    let Some(suite) = siv_marked(ABSORBING, siv.mark) else {
        return NOT_BEGUN;
    };
    let keys = siv.keys.keys(suite);
    outcome_number(siv.state.absorb(&keys, piece))
}

/// Ends the first reading: `tag` becomes the tag of its text, 16 bytes, and the second reading begins, which has taken in nothing
/// yet. Returns 0, or `NOT_BEGUN` if the struct is not in its first reading. Then the struct and `tag` are as before.
pub fn aeadkit_siv_begin_second(siv: &mut StoredSiv, tag: &mut [u8; 16]) -> u32 {
    let Some(suite) = siv_marked(ABSORBING, siv.mark) else {
        return NOT_BEGUN;
    };
    let keys = siv.keys.keys(suite);
    *tag = *siv.state.begin_second_reading(&keys).bytes();
    siv.mark = mark_of(WRITING, suite);
    0
}

/// Takes in a piece of the text, of any length, in the second reading, and leaves its ciphertext in its place. Returns 0,
/// `NOT_BEGUN` if the struct is not in its second reading, or `SourceChanged` if the second text would be longer than the first.
/// On both, the struct and the piece are as before.
pub fn aeadkit_siv_update(siv: &mut StoredSiv, piece: &mut [u8]) -> u32 {
    let Some(suite) = siv_marked(WRITING, siv.mark) else {
        return NOT_BEGUN;
    };
    let keys = siv.keys.keys(suite);
    let mut known = KnownBlock::none();
    outcome_number(siv.state.write(&keys, &mut known, piece))
}

/// Ends the second reading. Returns 0 if its text has the length and the tag of the first one, else `SourceChanged`: the caller
/// then has to throw away the ciphertext that `aeadkit_siv_update` gave. On both, zeros are left in the struct. Returns
/// `NOT_BEGUN` if the struct is not in its second reading: it is then as before.
pub fn aeadkit_siv_finish(siv: &mut StoredSiv) -> u32 {
    let Some(suite) = siv_marked(WRITING, siv.mark) else {
        return NOT_BEGUN;
    };
    let keys = siv.keys.keys(suite);
    let outcome = siv.state.end_reading(&keys);
    *siv = StoredSiv::zeros();
    outcome_number(outcome)
}

/// Leaves zeros in the struct, whatever bytes it held: for a sealing that is given up. Its keys are then no longer in the struct.
pub fn aeadkit_siv_wipe(siv: &mut StoredSiv) {
    let none = StoredSiv::zeros();
    *siv = none;
}

/// Returns the size of the struct of a sealing in two readings: 192 bytes.
pub fn aeadkit_siv_size() -> usize {
    size_of::<StoredSiv>()
}
