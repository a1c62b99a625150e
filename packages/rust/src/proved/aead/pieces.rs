// Made from crates/aead/src/pieces.rt by tools/erase: not to be edited.
//! Messages in pieces: the state of a message as plain numbers, the keys that are lent to each step of it, and what a caller holds
//! who seals or opens a message piece by piece under a cipher.

pub(in crate::proved::aead) mod aes_pass;
pub(in crate::proved::aead) mod key_and_nonce;
pub(in crate::proved::aead) mod keys;
pub(in crate::proved::aead) mod opener;
pub(in crate::proved::aead) mod pass_state;
pub(in crate::proved::aead) mod sealer;
pub(in crate::proved::aead) mod siv;
pub(in crate::proved::aead) mod text_parts;
pub(in crate::proved::aead) mod two_pass_state;
