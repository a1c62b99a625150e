// Made from crates/octets/src/lib.rt by tools/erase: not to be edited.
//! The vocabulary of every layer above: bytes, blocks, keys, faults and devices, and polynomials over two elements.
//!
//! The length of a key or a nonce that comes as a slice is checked once, and is part of its type from then on.
//!
//! From `crates/octets/src/uses.rt`:
//! ```text
//! fn pair_of(key: &[u8], nonce: &[u8]) -> Result<Pair, Fault>
//!     ensures found { IsOk result ↔ ((length key.now ≡ 32) × (length nonce.now ≡ 12)) }
//!     ensures value { IfOk result (λ p. (p.key ≡ key.now) × (p.nonce ≡ nonce.now)) }
//! {
//!     let key = Key32::from_slice(key)?;
//!     let nonce = Nonce::from_slice(nonce)?;
//!     Ok(Pair { key, nonce })
//! }
//! ```

mod bytes;
mod compare;
mod device;
mod failures;
mod fault;
mod memory;
mod pieces;
#[cfg(feature = "internals")]
mod script;
#[cfg(feature = "internals")]
mod std_io;
mod transfer;
mod vector_width;
mod words;
mod work;

pub use bytes::{Block, BlockUse, Bytes, Key16, Key24, Key32, KeyUse, LengthFault, Nonce, NonceUse, Tag, TagUse};
pub use compare::{same, xor_into, xored};
pub use device::{DeviceFault, Intake, Outlet};
pub use failures::Failures;
pub use fault::{Fault, outcome_number};
pub use memory::{SliceIntake, VecOutlet};
pub use pieces::{Absorb, Pieces};
#[cfg(feature = "internals")]
pub use script::{ScriptIntake, ScriptOutlet, Step};
#[cfg(feature = "internals")]
pub use std_io::{FromRead, ToWrite};
pub use transfer::{fill, give_all};
pub use vector_width::wide;
pub use words::{be_bytes, joined, le_bytes, padded};
pub use work::{BlockWork, Idle, Interleaved, Stream, Work};
