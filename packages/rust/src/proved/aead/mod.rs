// Made from crates/aead/src/lib.rt by tools/erase: not to be edited.
//! Authenticated encryption with associated data: ChaCha20-Poly1305 (RFC 8439), AES-GCM (SP 800-38D) and
//! AES-GCM-SIV (RFC 8452), with nonces of 12 bytes and tags of 16 bytes.
//!
//! A text is sealed under a key, and opened again. From `crates/aead/src/uses.rt`:
//! ```text
//! let cipher = AnyAead::new(Suite::Aes256GcmSiv, key)?;
//! let sealed = seal(other, &cipher, nonce, aad, text)?;
//! open(alloc, &cipher, nonce, aad, &sealed)
//! ```
//! A nonce must never be used twice under one key: [`seal`] says what a repeat gives away. A message is sealed or opened
//! in place by [`Aead`], sealed in pieces by [`Sealer`] or by [`SivAbsorb`] and [`SivWriter`], opened in pieces by [`Opener`]
//! and [`OpenWriter`], and sealed or opened over streams by [`seal_stream`], [`seal_siv_stream`] and [`open_stream`].
//! A caller that stores a message in pieces in its own memory keeps a [`KeyAndNonce`] beside a [`PassState`] or a
//! [`TwoPassState`], and makes the steps of the state under the keys that it lends.

mod aead;
mod any;
mod authenticator;
mod buffered_stream;
mod chacha_poly;
mod cuts;
mod derived_keys;
mod engine;
mod gcm;
mod gcm_siv;
mod hashes;
mod interleaved;
mod mask;
mod one_pass;
mod pieces;
mod rule;
mod step;
mod suite;
mod whole;

pub use aead::Aead;
pub use any::{AnyAead, AnyOnePass};
pub use chacha_poly::ChaChaPoly;
pub use cuts::seal_cut;
pub use engine::{open_stream, seal_siv_stream, seal_stream};
pub use gcm::{BorrowedGcm, Gcm, hash_subkey};
pub use gcm_siv::GcmSiv;
pub use pieces::key_and_nonce::KeyAndNonce;
pub use pieces::keys::MessageKeys;
pub use pieces::opener::{OpenWriter, Opener};
pub use pieces::pass_state::PassState;
pub use pieces::sealer::Sealer;
pub use pieces::siv::{SivAbsorb, SivWriter};
pub use pieces::two_pass_state::TwoPassState;
pub use suite::{Construction, Suite};
pub use whole::{open, seal};
