// Made from crates/keywrap/src/lib.rt by tools/erase: not to be edited.
//! AES Key Wrap, with the default initial value (RFC 3394; SP 800-38F, 6.1 and 6.2) and with padding (RFC 5649). `wrap`,
//! `unwrap`, `wrap_padded` and `unwrap_padded` return a new vector. Their forms `_in_place` work in the caller's bytes, and
//! their forms `_to` write to another output of the caller's; neither form allocates.
//!
//! There is no nonce: under one key the same text has the same wrapping, so wrappings show which texts are equal.
//!
//! Each step encrypts or decrypts a block, A and 8 bytes of the text, with `AesKey::encrypt_in_registers` or
//! `InverseKey::decrypt`. The checks of the unwrapped bytes are made all at once: no branch and no address depends on these
//! bytes, or on the length that they state, before the one branch on whether the wrapping is valid. No proof speaks of time.
//!
//! From `crates/keywrap/src/uses.rt`:
//! ```text
//! // A text comes back as it was.
//! fn there_and_back<A: Allocator, B: Allocator>(
//!     alloc: A,
//!     other: B,
//!     key: &AesKey,
//!     text: &[u8],
//! ) -> Result<Vec<u8, A>, Fault>
//!     ensures { IfOk result (λ v. v.items ≡ text.now) }
//! {
//!     let wrapped = wrap(other, key, text)?;
//!     unwrap(alloc, key, &wrapped)
//! }
//! ```

mod in_place;
mod outputs;
mod padded;
mod padded_in_place;
mod steps;
mod whole;

pub use in_place::{unwrap_in_place, wrap_in_place};
pub use outputs::{unwrap_padded_to, unwrap_to, wrap_padded_to, wrap_to};
pub use padded::{unwrap_padded, wrap_padded};
pub use padded_in_place::{unwrap_padded_in_place, wrap_padded_in_place};
pub use whole::{unwrap, wrap};
