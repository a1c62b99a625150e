//! Key wrapping of RFC 3394, and with padding of RFC 5649.

use crate::Error;
#[cfg(feature = "alloc")]
use crate::WRAP_BYTES;
use crate::error::result;
use crate::proved::capi::key_wrap;
#[cfg(feature = "alloc")]
use alloc::{vec, vec::Vec};
use core::fmt;

/// A key that wraps other keys, of 16, 24 or 32 bytes, written as `WrappingKey(&bytes)`.
///
/// A call takes it as this type, and what it wraps as a slice. Both are keys as a rule, often of one length: a call with the
/// two exchanged would wrap the wrong key under the one that is then lost, and so does not compile.
#[derive(Clone, Copy)]
pub struct WrappingKey<'a>(pub &'a [u8]);

/// Shows nothing of the key.
impl fmt::Debug for WrappingKey<'_> {
    fn fmt(&self, f: &mut fmt::Formatter<'_>) -> fmt::Result {
        f.write_str("WrappingKey")
    }
}

/// Wraps a text, as a rule a key, to other memory (RFC 3394): on success `wrapped` is the wrapping. Equal texts have equal
/// wrappings under one key.
///
/// # Errors
///
/// The first of these that applies; then no byte is written:
/// - `KeyLength`: `key` is not 16, 24 or 32 bytes long
/// - `WrapLength`: `text` is shorter than 16 bytes, or its length is not a multiple of 8
/// - `OutputLength`: `wrapped` is not 8 bytes longer than `text`
pub fn wrap(key: WrappingKey<'_>, text: &[u8], wrapped: &mut [u8]) -> Result<(), Error> {
    result(key_wrap::aeadkit_wrap(key.0, text, wrapped))
}

/// Unwraps to other memory what [`wrap`] made: on success `text` is the text.
///
/// # Errors
///
/// The first of these that applies. After `WrapIntegrity` the whole of `text` is zeros; after the others no byte is written.
/// - `KeyLength`: `key` is not 16, 24 or 32 bytes long
/// - `WrapLength`: `wrapped` is shorter than 24 bytes, or its length is not a multiple of 8
/// - `OutputLength`: `text` is not 8 bytes shorter than `wrapped`
/// - `WrapIntegrity`: `wrapped` is not a valid wrapping under this key
pub fn unwrap(key: WrappingKey<'_>, wrapped: &[u8], text: &mut [u8]) -> Result<(), Error> {
    result(key_wrap::aeadkit_unwrap(key.0, wrapped, text))
}

/// Wraps a text of any length from 1 to 2^32 - 1 bytes to other memory (RFC 5649).
///
/// On success `wrapped` is the wrapping, whose length is `text.len().next_multiple_of(8) + WRAP_BYTES`.
///
/// # Errors
///
/// The first of these that applies; then no byte is written:
/// - `KeyLength`: `key` is not 16, 24 or 32 bytes long
/// - `WrapLength`: `text` is empty
/// - `TextTooLong`: the text is longer than 2^32 - 1 bytes
/// - `OutputLength`: `wrapped` does not have that length
pub fn wrap_padded(key: WrappingKey<'_>, text: &[u8], wrapped: &mut [u8]) -> Result<(), Error> {
    result(key_wrap::aeadkit_wrap_padded(key.0, text, wrapped))
}

/// Unwraps to other memory what [`wrap_padded`] made, and returns the part of `text` that is the text.
///
/// On success `text` is the text followed by at most 7 zeros. Only the result tells where the text ends.
///
/// # Errors
///
/// The first of these that applies. After `WrapIntegrity` the whole of `text` is zeros; after the others no byte is written.
/// - `KeyLength`: `key` is not 16, 24 or 32 bytes long
/// - `WrapLength`: `wrapped` is shorter than 16 bytes, or its length is not a multiple of 8
/// - `TextTooLong`: the text is longer than 2^32 - 1 bytes
/// - `OutputLength`: `text` is not 8 bytes shorter than `wrapped`
/// - `WrapIntegrity`: `wrapped` is not a valid wrapping with padding under this key
pub fn unwrap_padded<'a>(key: WrappingKey<'_>, wrapped: &[u8], text: &'a mut [u8]) -> Result<&'a [u8], Error> {
    let mut length = 0;
    result(key_wrap::aeadkit_unwrap_padded(key.0, wrapped, text, &mut length))?;
    Ok(&text[..length])
}

/// Wraps a text as [`wrap`] does, and returns the wrapping.
///
/// # Errors
///
/// Those of [`wrap`], except `OutputLength`.
#[cfg(feature = "alloc")]
pub fn wrap_to_vec(key: WrappingKey<'_>, text: &[u8]) -> Result<Vec<u8>, Error> {
    let mut wrapped = vec![0; text.len() + WRAP_BYTES];
    wrap(key, text, &mut wrapped)?;
    Ok(wrapped)
}

/// Unwraps as [`unwrap`] does, and returns the text.
///
/// # Errors
///
/// Those of [`unwrap`], except `OutputLength`.
#[cfg(feature = "alloc")]
pub fn unwrap_to_vec(key: WrappingKey<'_>, wrapped: &[u8]) -> Result<Vec<u8>, Error> {
    let mut text = vec![0; wrapped.len().saturating_sub(WRAP_BYTES)];
    unwrap(key, wrapped, &mut text)?;
    Ok(text)
}

/// Wraps a text as [`wrap_padded`] does, and returns the wrapping.
///
/// # Errors
///
/// Those of [`wrap_padded`], except `OutputLength`.
#[cfg(feature = "alloc")]
pub fn wrap_padded_to_vec(key: WrappingKey<'_>, text: &[u8]) -> Result<Vec<u8>, Error> {
    let mut wrapped = vec![0; text.len().next_multiple_of(8) + WRAP_BYTES];
    wrap_padded(key, text, &mut wrapped)?;
    Ok(wrapped)
}

/// Unwraps as [`unwrap_padded`] does, and returns the text.
///
/// # Errors
///
/// Those of [`unwrap_padded`], except `OutputLength`.
#[cfg(feature = "alloc")]
pub fn unwrap_padded_to_vec(key: WrappingKey<'_>, wrapped: &[u8]) -> Result<Vec<u8>, Error> {
    let mut text = vec![0; wrapped.len().saturating_sub(WRAP_BYTES)];
    let length = unwrap_padded(key, wrapped, &mut text)?.len();
    text.truncate(length);
    Ok(text)
}
