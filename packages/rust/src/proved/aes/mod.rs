// Made from crates/aes/src/lib.rt by tools/erase: not to be edited.
//! AES with keys of 128, 192 and 256 bits, both ways (FIPS 197), and its streams of counting blocks (SP 800-38D, RFC 8452).
//!
//! No table in memory is looked up by a secret byte, except in [`AesKey::encrypt`] and [`round`]. That a call takes the same time
//! for all keys and blocks is not proved.
//!
//! From `crates/aes/src/uses.rt`:
//! ```text
//! // The cipher of a block under a key's bytes.
//! fn encrypted(key: &[u8], block: &Block) -> Result<Block, Fault>
//!     ensures { MatchResult result (λ b. b ≡ cipher key.now block.now)
//!         (λ e. (e ≡ Fault.KeyLength) × ¬ IsKeyLength (length key.now)) }
//! {
//!     let key = AesKey::from_slice(key)?;
//!     Ok(key.encrypt_in_registers(block))
//! }
//! ```

mod columns;
mod counted_planes;
mod counter;
mod first_round;
mod inverse_key;
mod inverse_lanes;
mod key;
mod key_planes;
mod lanes;
mod planes;
mod round_table;
mod schedule;

pub use columns::round;
pub use counter::{Count, Ctr, CtrBe, CtrLe, FirstFour, KnownBlock, LastFour};
pub use inverse_key::InverseKey;
pub use key::AesKey;
pub use key_planes::RoundKeyPlanes;
