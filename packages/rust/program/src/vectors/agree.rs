// Made from crates/vectors/src/agree.rt by tools/erase: not to be edited.
//! Whether a record of a vector file agrees with its standard: its sealed bytes are opened or unwrapped, and the result is
//! compared with its text.

use crate::kit::alloc::{AllocError, Allocator};
use crate::vectors::digits::Digits;
use crate::vectors::place::Entry;
use crate::vectors::suite::Algorithm;
use aeadkit::internals::aead::{Aead, AnyAead};
use aeadkit::internals::aes::AesKey;
use aeadkit::internals::keywrap::{unwrap_in_place, unwrap_padded_in_place};
use aeadkit::internals::octets::{Nonce, Tag};

// Whether a record's text is these bytes. A record that says `invalid` has no text.
fn is_text(text: Option<Digits<'_>>, bytes: &[u8]) -> bool {
    match text {
        Some(digits) => digits.spell(bytes),
        None => false,
    }
}

// Whether the sealed bytes are the sealing of the text, or not a valid sealing if there is no text.
fn sealing_agrees<A: Allocator>(
    alloc: &A,
    cipher: &AnyAead,
    nonce: &Nonce,
    aad: &[u8],
    sealed: Digits<'_>,
    text: Option<Digits<'_>>,
) -> Result<bool, AllocError> {
    let count = sealed.byte_count();
    if count < 16 {
        return Ok(text.is_none());
    }
    let (front, back) = sealed.split_at(count - 16);
    let mut tag = [0; 16];
    back.write(&mut tag);
    let mut body = front.bytes(alloc)?;
    match cipher.open_in_place(nonce, aad, &mut body, &Tag::new(tag)) {
        Ok(()) => Ok(is_text(text, &body)),
        Err(_) => Ok(text.is_none()),
    }
}

// Whether a record of authenticated encryption agrees.
fn aead_agrees<A: Allocator>(
    alloc: &A,
    suite: aeadkit::internals::aead::Suite,
    entry: &Entry<'_>,
) -> Result<bool, AllocError> {
    let mut key = [0; 32];
    let key = &mut key[..entry.key.byte_count()];
    entry.key.write(key);
    let Ok(cipher) = AnyAead::new(suite, key) else { unreachable!() };
    let mut nonce = [0; 12];
    entry.nonce.write(&mut nonce);
    let nonce = Nonce::new(nonce);
    let aad = entry.aad.bytes(alloc)?;
    sealing_agrees(alloc, &cipher, &nonce, &aad, entry.sealed, entry.text)
}

// The AES key that the digits spell.
fn aes_key(digits: Digits<'_>) -> AesKey {
    let mut room = [0; 32];
    let bytes = &mut room[..digits.byte_count()];
    digits.write(bytes);
    let Ok(key) = AesKey::from_slice(bytes) else { unreachable!() };
    key
}

// Whether the bytes are the wrapping of the text (RFC 3394), or not a valid wrapping if there is no text. Unwraps them in
// place.
fn wrapping_agrees(key: &AesKey, sealed: &mut [u8], text: Option<Digits<'_>>) -> bool {
    match unwrap_in_place(key, sealed) {
        Ok(()) => is_text(text, &sealed[8..]),
        Err(_) => text.is_none(),
    }
}

// Whether the bytes are the wrapping of the text with padding (RFC 5649), or not a valid wrapping if there is no text. Unwraps
// them in place.
fn padded_wrapping_agrees(key: &AesKey, sealed: &mut [u8], text: Option<Digits<'_>>) -> bool {
    match unwrap_padded_in_place(key, sealed) {
        Ok(count) => is_text(text, &sealed[8..8 + count]),
        Err(_) => text.is_none(),
    }
}

// Whether a record agrees: its sealed bytes are those of its text, or not valid if it says `invalid`.
pub(in crate::vectors) fn agrees<A: Allocator>(alloc: &A, entry: &Entry<'_>) -> Result<bool, AllocError> {
    match entry.suite {
        Algorithm::Aead(suite) => aead_agrees(alloc, suite, entry),
        Algorithm::Wrap(_) => {
            let mut sealed = entry.sealed.bytes(alloc)?;
            Ok(wrapping_agrees(&aes_key(entry.key), &mut sealed, entry.text))
        }
        Algorithm::WrapPad(_) => {
            let mut sealed = entry.sealed.bytes(alloc)?;
            Ok(padded_wrapping_agrees(&aes_key(entry.key), &mut sealed, entry.text))
        }
    }
}
