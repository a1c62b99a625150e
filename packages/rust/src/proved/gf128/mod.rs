// Made from crates/gf128/src/lib.rt by tools/erase: not to be edited.
//! Products in GHASH's field, and GHASH (SP 800-38D, 6.3 and 6.4) and POLYVAL (RFC 8452, 3) over a text that comes in pieces.
//! No call fails, and none allocates. No multiplier looks a table in memory up by bytes of the key or of the text, or branches on
//! them; the proofs say nothing of timing.
//!
//! From `crates/gf128/src/uses.rt`:
//! ```text
//! // GHASH of a text that comes in two pieces.
//! fn ghash_of_two(key: &Block, first: &[u8], second: &[u8]) -> Block
//!     ensures { result ≡ ghash key.now (pad16 (first.now ++ second.now)) }
//! {
//!     let mut state = Ghash::<Mul>::new(key);
//!     state.update(first);
//!     state.update(second);
//!     state.finish()
//! }
//! ```

mod bit_mul;
mod ghash;
mod hash;
mod hash_order;
mod keyed;
mod nibbles;
mod paired;
mod placed;
mod polynomial_word;
mod polyval;
mod table_mul;
mod tables;
mod wide_mul;
mod word_bytes;
mod word_pairs;

pub use bit_mul::BitMul;
pub use ghash::{Ghash, GhashOrder};
pub use hash::BlockHash;
pub use hash_order::HashOrder;
pub use keyed::{Keyed128, Multiply};
pub use polyval::{Polyval, PolyvalOrder, reversed_mul_x};
pub use table_mul::{PlainMul, TableMul};
pub use tables::PlainMultiples;
pub use wide_mul::WideMul;

/// The multiplier to take if the length of the text is not known: its tables are small and quickly made.
pub type Mul = TableMul;
