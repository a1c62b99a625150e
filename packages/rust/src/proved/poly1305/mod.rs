// Made from crates/poly1305/src/lib.rt by tools/erase: not to be edited.
//! Poly1305 (RFC 8439, 2.5): the tag of 16 bytes of a text that comes in pieces, under a key of 32 bytes. It is a one-time key:
//! it must never be used for two texts. No call fails, and none allocates.
//!
//! From `crates/poly1305/src/uses.rt`:
//! ```text
//! // The tag of a text that comes in two pieces. The key must not be used for another text.
//! fn tag_of_two(key: &[u8; 32], first: &[u8], second: &[u8]) -> Tag
//!     ensures { result ≡ poly1305 key.now (first.now ++ second.now) }
//! {
//!     let mut state = Poly::new(key);
//!     state.update(first);
//!     state.update(second);
//!     state.finish()
//! }
//! ```

mod nibble_mul;
mod partial_sum;
mod poly;
mod residue;
mod side_by_side;
mod word_mul;

pub use nibble_mul::NibbleMul;
pub use partial_sum::PartialSum;
pub use poly::PolyBy;
pub use residue::Sum;
pub use word_mul::WordMul;

/// A way to multiply by the key's clamped number r, modulo 2^130 - 5.
pub trait Multiplier {
    /// Makes the multiplier by `r`, 16 bytes of the key after clamping (RFC 8439, 2.5).
    fn new(r: u128) -> Self;

    /// Adds a block to the sum and multiplies by the factor. `mark` is 1 for a whole block, whose extra bit stands above its 16
    /// bytes, and 0 for a shorter one, which has that bit within `block`.
    fn step(&self, sum: Sum, block: u128, mark: u64) -> Sum;
}

/// The one-time authenticator (RFC 8439, 2.5) with the multiplier that is used here: `new`, then `update` and `pad16` in any
/// order, then `finish`.
pub type Poly = PolyBy<WordMul>;
