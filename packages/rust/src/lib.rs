//! Authenticated encryption (ChaCha20-Poly1305 of RFC 8439, AES-GCM of SP 800-38D, AES-GCM-SIV of RFC 8452) and key wrapping
//! (RFC 3394, RFC 5649), whose source is proved to compute what the standards say.
//!
#![cfg_attr(feature = "alloc", doc = "```")]
#![cfg_attr(not(feature = "alloc"), doc = "```ignore")]
//! use aeadkit::{Aad, Error, Key, Suite};
//!
//! # fn main() -> Result<(), Error> {
//! let key = Key::new(Suite::ChaCha20Poly1305, &[7; 32])?; // for a trial: a real key is random
//! let mut nonce = [0; 12];
//! nonce[4..].copy_from_slice(&1u64.to_be_bytes()); // the number of the message, never twice under one key
//! let sealed = key.seal_to_vec(&nonce, b"attack at dawn", Aad(b"to: general"))?;
//! assert_eq!(sealed.len(), 14 + 16); // the ciphertext, then the tag
//! assert_eq!(key.open_to_vec(&nonce, &sealed, Aad(b"to: admiral")), Err(Error::TagMismatch));
//! assert_eq!(key.open_to_vec(&nonce, &sealed, Aad(b"to: general"))?, b"attack at dawn");
//! # Ok(())
//! # }
//! ```
//!
//! Never use a nonce twice under one key: [`Key`](Key#nonces) says what a repeat gives away.
//!
//! | calls | the result | the tag |
//! |---|---|---|
//! | [`Key::seal_to_vec`], [`Key::open_to_vec`] | is a vector | stands at the end of the sealing |
//! | [`Key::seal`], [`Key::open`] | stands in a slice of the caller, beside the input | stands at the end of the sealing |
//! | [`Key::seal_in_place`], [`Key::open_in_place`] | stands where the input stood | is separate |
//! | [`Key::sealer`], [`Key::siv_sealer`], [`Key::opener`] | stands where each piece of the input stood | is separate |
//! | [`wrap_to_vec`], [`unwrap_to_vec`], [`wrap_padded_to_vec`], [`unwrap_padded_to_vec`] | is a vector | |
//! | [`wrap`], [`unwrap`], [`wrap_padded`], [`unwrap_padded`] | stands in a slice of the caller | |
//!
//! All calls take their arguments in one order: nonce, the bytes that are sealed or opened, the bytes that the result goes to, a
//! tag that is given, and the associated data. Associated data is an [`Aad`] and a key that wraps others a [`WrappingKey`]: a
//! call that exchanges one of them with a text does not compile.
//!
//! After an error each buffer is as before, with two exceptions: if [`Key::open`], [`unwrap`] or [`unwrap_padded`] fails to
//! authenticate, its output is all zeros; and a second pass or reading in pieces may end with [`Error::SourceChanged`] after it
//! changed its pieces. Only the calls that return a vector allocate.
//!
//! No suite and no key wrap looks up memory by a secret byte or branches on one. This was looked for in the machine code, in the
//! builds and with the lengths that `docs/SECURITY.md` of the repository names, and is not proved. [`Key`] and the states in
//! pieces are wiped when they are dropped. The caller's slices, the stack, and the places that a key or a state was moved from
//! are not.
//!
//! A call takes up to 12 KiB of stack in an optimized build, however long the text is.
//!
//! The crate is `no_std`, and without its default feature `alloc` it has no calls that return vectors. It is for processors with
//! pointers of 64 bits, in either order of bytes. On x86-64 it needs SSSE3, which x86-64-v2 has, and no flags. A program for
//! processors with AVX2 or AVX-512, as with `RUSTFLAGS="-C target-cpu=x86-64-v3"`, has faster code. On AArch64 it uses NEON. On any
//! other processor vectors are made of integers: ChaCha20-Poly1305 is fast there, AES slow.
//!
//! # What is proved
//!
//! The modules in `src/proved` are the source of the repository's `crates`, which is Rust with contracts that are proved, without the
//! contracts. Your compiler builds them. The rest is not proved: it hands the arguments over (this API), and gives the source its
//! vectors (`src/simd`) and its allocations (`src/kit`). The tests compare each operation on vectors with a plain definition. Unsafe
//! code stands in `src/simd` and in `src/wiped.rs`. `python3 tools/erase/erase.py --check` in the repository shows that
//! `src/proved` is what the proved source becomes.

#![no_std]
#![deny(unsafe_code)]
#![cfg_attr(not(feature = "internals"), warn(missing_docs))]

#[cfg(not(target_pointer_width = "64"))]
compile_error!("aeadkit is proved for processors with pointers of 64 bits, and is not built for others");

#[cfg(feature = "alloc")]
extern crate alloc;
#[cfg(any(test, feature = "internals"))]
extern crate std;

mod aad;
mod error;
mod key;
#[allow(dead_code, reason = "the API allocates nothing by it")]
mod kit;
mod opener;
mod proved;
mod sealer;
mod simd;
mod siv;
mod suite;
mod tag;
#[cfg(test)]
mod tests;
mod wiped;
mod wrap;

/// No part of the API: what the program, the library for C and the tests of the repository are built from.
#[cfg(feature = "internals")]
#[doc(hidden)]
pub mod internals {
    pub use crate::proved::*;

    pub mod kit {
        pub use crate::kit::*;
    }
}

pub use aad::Aad;
pub use error::Error;
pub use key::Key;
pub use opener::{CheckedOpener, Opener};
pub use sealer::Sealer;
pub use siv::{SivSealer, SivWriter};
pub use suite::Suite;
pub use tag::Tag;
pub use wrap::{WrappingKey, unwrap, unwrap_padded, wrap, wrap_padded};
#[cfg(feature = "alloc")]
pub use wrap::{unwrap_padded_to_vec, unwrap_to_vec, wrap_padded_to_vec, wrap_to_vec};

/// The length of a tag in bytes: a sealing is longer than its text by this.
pub const TAG_BYTES: usize = 16;

/// The number of bytes by which a wrapping is longer than its text, or than its padded text.
pub const WRAP_BYTES: usize = 8;

/// The length of a nonce in bytes.
pub const NONCE_BYTES: usize = 12;

#[cfg(all(doctest, feature = "alloc"))]
#[doc = include_str!("../README.md")]
#[doc = include_str!("../tests/compile_fail.md")]
struct TestedPages;
