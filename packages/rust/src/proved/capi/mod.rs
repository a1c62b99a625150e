// Made from crates/capi/src/lib.rt by tools/erase: not to be edited.
//! The calls for C: a thin static library over public calls of `keywrap` and `aead`, whose clauses each export states again. An
//! export does one of these:
//! - It wraps or unwraps under the bytes of a key (`key_wrap`).
//! - It seals or opens a whole message, in place or into another output, under the bytes of a key (`whole`) or under a key that a
//!   struct keeps (`key`).
//! - It makes one step of a sealing in one reading (`sealer`), a sealing in two readings (`siv`) or an opening in two passes
//!   (`opener`). The state stands in a struct behind a mark.
//! - It returns a fact about a suite or the library (`facts`).
//!
//! A slice crosses as a pointer and a length, and a suite as its number. The status is 0, the number of a fault, 14 if the call
//! takes no suite with the number, 15 if nothing is begun or kept in the struct, or 16 if the output is not as long as the
//! result. The header `packages/c/include/aeadkit.h` is the manual for C.
//!
//! In C a text of `length` bytes is sealed into other memory, with the tag at the end, and opened from there:
//! ```c
//! if (aeadkit_seal(AEADKIT_CHACHA20_POLY1305, key, 32, nonce, 12, text, length, aad, aad_length,
//!                  sealed, length + AEADKIT_TAG_BYTES) != AEADKIT_DONE) return 1;
//! if (aeadkit_open(AEADKIT_CHACHA20_POLY1305, key, 32, nonce, 12, sealed, length + AEADKIT_TAG_BYTES, aad, aad_length,
//!                  opened, length) != AEADKIT_DONE) return 1;
//! ```

pub mod facts;
pub mod key;
pub mod key_wrap;
pub mod opener;
pub mod sealer;
pub mod siv;
pub mod stored_key;
pub mod suites;
pub mod whole;
