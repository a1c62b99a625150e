// Made from crates/capi/src/opener.rt by tools/erase: not to be edited.
//! The calls for C that open a sealing in pieces in two passes (RFC 8439, 2.8; SP 800-38D, 7.2; RFC 8452, 5). The first pass over
//! the ciphertext authenticates it and gives no text. The second one decrypts, and begins only if the first was over a valid
//! sealing.

use crate::proved::aead::{KeyAndNonce, Suite, TwoPassState};
use crate::proved::aes::KnownBlock;
use crate::proved::capi::suites::{NOT_BEGUN, UNKNOWN_SUITE, mark_of, marked};
use crate::proved::octets::{Fault, outcome_number};

// The number of this kind of struct in the first pass: `opener` in ASCII, and the version of its layout. A mark is this number
// plus the suite's.
const CHECKING: u64 = 0x6f70_656e_6572_0200;

// The number of this kind of struct in the second pass: `opened` in ASCII, and the version of its layout.
const OPENING: u64 = 0x6f70_656e_6564_0200;

/// An opening in pieces in two passes, 192 bytes. Each of its numbers may have any value.
#[repr(C)]
#[derive(Clone, Copy)]
pub struct StoredOpener {
    // The mark of an opening in one of its passes, under a suite; any other number if no opening is begun.
    mark: u64,
    pub(in crate::proved::capi) keys: KeyAndNonce,
    // The bytes between the nonce and the numbers, so that no byte of the struct is left out of what is promised.
    reserved: u32,
    pub(in crate::proved::capi) state: TwoPassState,
}

impl StoredOpener {
    // Returns a struct of zeros. It holds no opening.
    pub(in crate::proved::capi) fn zeros() -> StoredOpener {
        StoredOpener { mark: 0, keys: KeyAndNonce::zeros(), reserved: 0, state: TwoPassState::zeros() }
    }

    // Marks the struct if the message was begun in it: the first pass begins, under this tag. If that was refused, the struct stays
    // zeros. Returns the status.
    #[inline(always)]
    pub(in crate::proved::capi) fn note_begun(
        &mut self,
        suite: Suite,
        begun: Result<(), Fault>,
        tag: &[u8; 16],
    ) -> u32 {
        match begun {
            Ok(()) => {
                self.mark = mark_of(CHECKING, suite);
                self.state = TwoPassState::first_pass(self.state.pass, tag);
                outcome_number(Ok(()))
            }
            Err(fault) => outcome_number(Err(fault)),
        }
    }
}

/// Begins the first pass of an opening in pieces (RFC 8439, 2.8; SP 800-38D, 7.2; RFC 8452, 5), which has taken in nothing yet.
/// `tag` is the last 16 bytes of the sealing. What the struct held before makes no difference. Returns 0, or the first of these
/// that applies: `UNKNOWN_SUITE` if no suite has the number, `KeyLength` if the key does not have the suite's length,
/// `NonceLength` if the nonce is not 12 bytes long, `AadTooLong` if the associated data is past the suite's limit. On each of
/// them zeros are left in the struct.
pub fn aeadkit_opener_init(
    opener: &mut StoredOpener,
    suite: u32,
    key: &[u8],
    nonce: &[u8],
    aad: &[u8],
    tag: &[u8; 16],
) -> u32 {
    *opener = StoredOpener::zeros();
    let Some(suite) = Suite::from_number(suite) else {
        return UNKNOWN_SUITE;
    };
    let begun = opener.keys.begin(&mut opener.state.pass, suite, key, nonce, aad);
    opener.note_begun(suite, begun, tag)
}

/// Takes in a piece of the ciphertext, of any length, in the first pass. Returns 0, `NOT_BEGUN` if the struct is not in its first
/// pass, or `TextTooLong` if the ciphertext would be past the suite's limit. On both, the struct is as before.
pub fn aeadkit_opener_check(opener: &mut StoredOpener, piece: &[u8]) -> u32 {
    let Some(suite) = marked(CHECKING, opener.mark) else {
        return NOT_BEGUN;
    };
    let keys = opener.keys.keys(suite);
    outcome_number(opener.state.check(&keys, piece))
}

/// Ends the first pass. If it was over a valid sealing, the second pass begins, which has taken in nothing yet. Returns 0,
/// `NOT_BEGUN` if the struct is not in its first pass, or `TagMismatch` if authentication failed. On `NOT_BEGUN` the struct is as
/// before; on `TagMismatch` zeros are left in it.
pub fn aeadkit_opener_begin_second(opener: &mut StoredOpener) -> u32 {
    let Some(suite) = marked(CHECKING, opener.mark) else {
        return NOT_BEGUN;
    };
    let keys = opener.keys.keys(suite);
    match opener.state.begin_second_pass(&keys) {
        Ok(()) => {
            opener.mark = mark_of(OPENING, suite);
            outcome_number(Ok(()))
        }
        Err(fault) => {
            *opener = StoredOpener::zeros();
            outcome_number(Err(fault))
        }
    }
}

/// Takes in a piece of the ciphertext, of any length, in the second pass, and leaves its text in its place. Returns 0,
/// `NOT_BEGUN` if the struct is not in its second pass, or `SourceChanged` if the second pass would be longer than the first. On
/// both, the struct and the piece are as before.
pub fn aeadkit_opener_update(opener: &mut StoredOpener, piece: &mut [u8]) -> u32 {
    let Some(suite) = marked(OPENING, opener.mark) else {
        return NOT_BEGUN;
    };
    let keys = opener.keys.keys(suite);
    let mut known = KnownBlock::none();
    outcome_number(opener.state.open(&keys, &mut known, piece))
}

/// Ends the second pass. Returns 0 if it was over a valid sealing, else `SourceChanged`: the caller then has to throw away the
/// text that `aeadkit_opener_update` gave. On both, zeros are left in the struct. Returns `NOT_BEGUN` if the struct is not in its
/// second pass: it is then as before.
pub fn aeadkit_opener_finish(opener: &mut StoredOpener) -> u32 {
    let Some(suite) = marked(OPENING, opener.mark) else {
        return NOT_BEGUN;
    };
    let keys = opener.keys.keys(suite);
    let outcome = opener.state.end_pass(&keys);
    *opener = StoredOpener::zeros();
    outcome_number(outcome)
}

/// Leaves zeros in the struct, whatever bytes it held: for an opening that is given up. Its key is then no longer in the struct.
pub fn aeadkit_opener_wipe(opener: &mut StoredOpener) {
    let none = StoredOpener::zeros();
    *opener = none;
}

/// Returns the size of the struct of an opening in pieces: 192 bytes.
pub fn aeadkit_opener_size() -> usize {
    size_of::<StoredOpener>()
}
