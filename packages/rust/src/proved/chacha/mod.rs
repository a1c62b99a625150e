// Made from crates/chacha/src/lib.rt by tools/erase: not to be edited.
//! ChaCha20 (RFC 8439, 2.1 to 2.4): the block, four blocks at once, the key stream in pieces, and its first blocks.
//!
//! One call encrypts and decrypts. It does not authenticate the text: the crate `aead` does.
//!
//! From `crates/chacha/src/uses.rt`:
//! ```text
//! // Encrypts the bytes in place with the key stream from block 1 on. The nonce must not be used for another text.
//! fn encrypt(key: &Key32, nonce: &Nonce, bytes: &mut [u8]) -> Result<(), Fault>
//!     ensures done { OnOk result (bytes.new ≡ masked (key_stream_byte key.now nonce.now 1) 0 bytes.old) }
//!     ensures kept { OnErr result (bytes.new ≡ bytes.old) }
//! {
//!     let mut stream = ChaStream::new(key, nonce, 1);
//!     stream.apply(bytes)
//! }
//! ```

mod interleaved;
mod lanes;
mod plan;
mod row_beside;
mod rows;
mod runs;
mod start;
mod state;
mod stream;

pub use lanes::{four_blocks, set_four_starts};
pub use plan::{BlocksAtOnce, SEVEN_BLOCKS, interleaving_pays};
pub use rows::block;
pub use start::{EightBlocks, FiveBlocks, FourBlocks, KeyStreamStart, SixBlocks, ThreeBlocks, TwoBlocks};
pub use stream::ChaStream;
