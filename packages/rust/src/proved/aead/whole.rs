// Made from crates/aead/src/whole.rt by tools/erase: not to be edited.
//! Sealing and opening of a whole message into a vector.

use crate::kit::alloc::{Allocator, Vec};
use crate::proved::aead::aead::Aead;
use crate::proved::aead::any::AnyAead;
use crate::proved::aead::suite::Suite;
use crate::proved::octets::{Fault, Nonce, Tag};

// Returns the text of a sealing, with the faults of [`open`].
fn opened_text<A: Allocator>(
    alloc: A,
    cipher: &AnyAead,
    nonce: &Nonce,
    aad: &[u8],
    sealed: &[u8],
) -> Result<Vec<u8, A>, Fault> {
    let suite = cipher.suite();
    suite.check_aad(aad)?;
    let Some((body, tag)) = sealed.split_last_chunk() else {
        return Err(Fault::TooShort);
    };
    suite.check_text(body)?;
    let mut text = Vec::from_slice(alloc, body)?;
    cipher.open_and_restore(nonce, aad, &mut text, &Tag::new(*tag))?;
    Ok(text)
}

/// Returns the sealing of a text under a nonce with associated data: the ciphertext, as long as the text,
/// and the tag of 16 bytes. Faults: `AadTooLong`, then `TextTooLong`, if a length in bytes is past the
/// suite's limit, then `OutOfMemory`. The limits are low enough that any sealing's length is a `usize`.
///
/// The nonce must never be used twice under one key. Under ChaCha20-Poly1305 and AES-GCM a repeat gives away the XOR of
/// the two texts, and enough to forge messages; under AES-GCM-SIV it gives away only whether the texts and the
/// associated data were the same.
pub fn seal<A: Allocator>(
    alloc: A,
    cipher: &AnyAead,
    nonce: &Nonce,
    aad: &[u8],
    text: &[u8],
) -> Result<Vec<u8, A>, Fault> {
    let suite = cipher.suite();
    suite.check_aad(aad)?;
    suite.check_text(text)?;
    let mut sealed = Vec::with_capacity(alloc, text.len() + Suite::TAG_LENGTH)?;
    sealed.extend_from_slice(text)?;
    let tag = cipher.seal_fitting(nonce, aad, &mut sealed);
    sealed.extend_from_slice(tag.bytes())?;
    Ok(sealed)
}

/// Returns the text of a sealing under a nonce with associated data. Faults, in this order: `AadTooLong` if
/// the data is past the suite's limit, `TooShort` for fewer than 16 bytes, `TextTooLong` if there are more
/// than 16 bytes past the suite's limit of a text, `OutOfMemory`, `TagMismatch` if authentication failed.
pub fn open<A: Allocator>(
    alloc: A,
    cipher: &AnyAead,
    nonce: &Nonce,
    aad: &[u8],
    sealed: &[u8],
) -> Result<Vec<u8, A>, Fault> {
    opened_text(alloc, cipher, nonce, aad, sealed)
}
