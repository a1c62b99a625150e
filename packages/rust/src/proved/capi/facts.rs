// Made from crates/capi/src/facts.rt by tools/erase: not to be edited.
//! The calls for C that return facts about the suites and the library.

use crate::proved::aead::Suite;

/// Returns the length of a suite's key in bytes: 16, 24 or 32; 0 if no suite has the number.
pub fn aeadkit_key_length(suite: u32) -> usize {
    match Suite::from_number(suite) {
        Some(suite) => suite.key_length(),
        None => 0,
    }
}

/// Returns the length of the longest text under a suite, in bytes: 2^38 - 64 (RFC 8439, 2.8), 2^36 - 32 (SP 800-38D, 5.2.1.1) or
/// 2^36 (RFC 8452, 6); 0 if no suite has the number.
pub fn aeadkit_text_limit(suite: u32) -> u64 {
    match Suite::from_number(suite) {
        Some(suite) => suite.text_limit(),
        None => 0,
    }
}

/// Returns the length of the longest associated data under a suite, in bytes: 2^64 - 1 (RFC 8439, 2.8), 2^61 - 1 (SP 800-38D,
/// 5.2.1.1, which counts bits) or 2^36 (RFC 8452, 6); 0 if no suite has the number.
pub fn aeadkit_aad_limit(suite: u32) -> u64 {
    match Suite::from_number(suite) {
        Some(suite) => suite.aad_limit(),
        None => 0,
    }
}

/// Returns the version of the library, as major * 10000 + minor * 100 + patch.
pub fn aeadkit_version() -> u32 {
    30000
}
