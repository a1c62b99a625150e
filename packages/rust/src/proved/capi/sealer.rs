// Made from crates/capi/src/sealer.rt by tools/erase: not to be edited.
//! The calls for C that seal a text in pieces in one reading, under the suites whose tag is over the ciphertext:
//! ChaCha20-Poly1305 (RFC 8439, 2.8) and AES-GCM (SP 800-38D, 7.1).

use crate::proved::aead::{KeyAndNonce, PassState, Suite};
use crate::proved::aes::KnownBlock;
use crate::proved::capi::suites::{NOT_BEGUN, UNKNOWN_SUITE, is_siv, mark_of, one_pass_marked};
use crate::proved::octets::{Fault, outcome_number};

// The number of this kind of struct: `sealer` in ASCII, and the version of its layout. A mark is this number plus the suite's.
const SEALER: u64 = 0x7365_616c_6572_0200;

/// A sealing in pieces in one reading, 144 bytes. Each of its numbers may have any value.
#[repr(C)]
#[derive(Clone, Copy)]
pub struct StoredSealer {
    // The mark of a sealing under a suite; any other number if no sealing is begun.
    mark: u64,
    pub(in crate::proved::capi) keys: KeyAndNonce,
    // The bytes between the nonce and the numbers, so that no byte of the struct is left out of what is promised.
    reserved: u32,
    pub(in crate::proved::capi) state: PassState,
}

impl StoredSealer {
    // Returns a struct of zeros. It holds no sealing.
    pub(in crate::proved::capi) fn zeros() -> StoredSealer {
        StoredSealer { mark: 0, keys: KeyAndNonce::zeros(), reserved: 0, state: PassState::zeros() }
    }

    // Marks the struct if the sealing was begun in it. If that was refused, the struct stays zeros. Returns the status.
    #[inline(always)]
    pub(in crate::proved::capi) fn note_begun(&mut self, suite: Suite, begun: Result<(), Fault>) -> u32 {
        match begun {
            Ok(()) => {
                self.mark = mark_of(SEALER, suite);
                outcome_number(Ok(()))
            }
            Err(fault) => outcome_number(Err(fault)),
        }
    }
}

/// Begins a sealing in pieces (RFC 8439, 2.8; SP 800-38D, 7.1), which then holds the empty text. What the struct held before
/// makes no difference. Returns 0, or the first of these that applies: `UNKNOWN_SUITE` if the number is not that of a suite whose
/// tag is over the ciphertext, `KeyLength` if the key does not have the suite's length, `NonceLength` if the nonce is not 12
/// bytes long, `AadTooLong` if the associated data is past the suite's limit. On each of them zeros are left in the struct.
///
/// The nonce must never be used twice under one key: a repeat gives away the XOR of the two texts, and enough to forge messages.
pub fn aeadkit_sealer_init(sealer: &mut StoredSealer, suite: u32, key: &[u8], nonce: &[u8], aad: &[u8]) -> u32 {
    *sealer = StoredSealer::zeros();
    let Some(suite) = Suite::from_number(suite) else {
        return UNKNOWN_SUITE;
    };
    if is_siv(suite) {
        return UNKNOWN_SUITE;
    }
    let begun = sealer.keys.begin(&mut sealer.state, suite, key, nonce, aad);
    sealer.note_begun(suite, begun)
}

/// Adds a piece, of any length, to the text, and leaves its ciphertext in its place. Returns 0, `NOT_BEGUN` if no sealing is
/// begun in the struct, or `TextTooLong` if the text would be past the suite's limit. On both, the struct and the piece are as
/// before.
pub fn aeadkit_sealer_update(sealer: &mut StoredSealer, piece: &mut [u8]) -> u32 {
    let Some(suite) = one_pass_marked(SEALER, sealer.mark) else {
        return NOT_BEGUN;
    };
    let mut known = KnownBlock::none();
    // The keys are lent in the call: with a local for them the compiler keeps the code of AES-GCM-SIV, which is never reached here.
    outcome_number(sealer.state.seal(&sealer.keys.keys(suite), &mut known, piece))
}

/// Ends the sealing: `tag` becomes the tag of the text, 16 bytes, and zeros are left in the struct. Returns 0, or `NOT_BEGUN` if
/// no sealing is begun in the struct. Then the struct and `tag` are as before.
pub fn aeadkit_sealer_finish(sealer: &mut StoredSealer, tag: &mut [u8; 16]) -> u32 {
    let Some(suite) = one_pass_marked(SEALER, sealer.mark) else {
        return NOT_BEGUN;
    };
    let keys = sealer.keys.keys(suite);
    *tag = *sealer.state.tag_of_text(&keys).bytes();
    *sealer = StoredSealer::zeros();
    0
}

/// Leaves zeros in the struct, whatever bytes it held: for a sealing that is given up. Its key is then no longer in the struct.
pub fn aeadkit_sealer_wipe(sealer: &mut StoredSealer) {
    let none = StoredSealer::zeros();
    *sealer = none;
}

/// Returns the size of the struct of a sealing in pieces in one reading: 144 bytes.
pub fn aeadkit_sealer_size() -> usize {
    size_of::<StoredSealer>()
}
