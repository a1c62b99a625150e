// Made from crates/capi/src/suites.rt by tools/erase: not to be edited.
//! The statuses that no fault has, and the marks of the structs.

use crate::proved::aead::{Construction, Suite};

// The status of a call that takes no suite with the given number.
pub(in crate::proved::capi) const UNKNOWN_SUITE: u32 = 14;

// The status of a call on a struct in which nothing is begun or kept.
pub(in crate::proved::capi) const NOT_BEGUN: u32 = 15;

// The status of a call whose output is not as long as its result. So no length that is one byte off writes past the output or
// leaves a part of it unwritten.
pub(in crate::proved::capi) const OUTPUT_LENGTH: u32 = 16;

// Returns the mark of a struct of this kind under a suite.
pub(in crate::proved::capi) fn mark_of(kind: u64, suite: Suite) -> u64 {
    kind + u64::from(suite.number())
}

// Returns the suite of a mark, if it is the mark of a struct of this kind.
pub(in crate::proved::capi) fn marked(kind: u64, mark: u64) -> Option<Suite> {
    match u32::try_from(mark.checked_sub(kind)?) {
        Ok(number) => Suite::from_number(number),
        Err(_) => None,
    }
}

// Returns the suite of a mark, if it is the mark of a struct of this kind and the suite's tag is over the ciphertext.
pub(in crate::proved::capi) fn one_pass_marked(kind: u64, mark: u64) -> Option<Suite> {
    match marked(kind, mark) {
        Some(suite) if is_siv(suite) => None,
        found => found,
    }
}

// Returns the suite of a mark, if it is the mark of a struct of this kind and the suite is one of AES-GCM-SIV.
pub(in crate::proved::capi) fn siv_marked(kind: u64, mark: u64) -> Option<Suite> {
    match marked(kind, mark) {
        Some(suite) if is_siv(suite) => Some(suite),
        _ => None,
    }
}

// Whether a suite is one of AES-GCM-SIV.
pub(in crate::proved::capi) fn is_siv(suite: Suite) -> bool {
    match suite.construction() {
        Construction::ChaChaPoly | Construction::Gcm => false,
        Construction::GcmSiv => true,
    }
}
