// Made from crates/keywrap/src/outputs.rt by tools/erase: not to be edited.
//! Wrapping and unwrapping into an output of the caller's (RFC 3394, 2.2; RFC 5649, 4.1 and 4.2). Nothing is allocated.

use crate::proved::aes::AesKey;
use crate::proved::keywrap::padded::{alternative_value, encrypt_register, has_blocks, unwrap_padded_register};
use crate::proved::keywrap::steps::{
    INITIAL_VALUE, first_eight, has_wrapped_length, is_initial_value, unwrap_blocks, wrap_register,
};
use crate::proved::octets::Fault;

/// Wraps a text into `wrapped`, which is eight bytes longer than it (RFC 3394, 2.2.1). Returns `WrapLength` if the text is
/// not at least two whole blocks of eight bytes; then nothing is written.
pub fn wrap_to(key: &AesKey, text: &[u8], wrapped: &mut [u8]) -> Result<(), Fault> {
    if !has_wrapped_length(wrapped) {
        return Err(Fault::WrapLength);
    }
    wrapped[8..].copy_from_slice(text);
    wrapped[..8].copy_from_slice(&INITIAL_VALUE);
    wrap_register(key, wrapped);
    Ok(())
}

/// Unwraps into `text`, which is eight bytes shorter than the wrapping (RFC 3394, 2.2.2). Faults, in this order: `WrapLength`
/// if the wrapping's length is under 24 or not a multiple of 8, `WrapIntegrity` if the bytes are not a valid wrapping under
/// this key. On `WrapIntegrity` the whole of `text` is zeros; on `WrapLength` nothing is written.
pub fn unwrap_to(key: &AesKey, wrapped: &[u8], text: &mut [u8]) -> Result<(), Fault> {
    if !has_wrapped_length(wrapped) {
        return Err(Fault::WrapLength);
    }
    let mut first = first_eight(wrapped);
    text.copy_from_slice(&wrapped[8..]);
    unwrap_blocks(key, &mut first, text);
    if is_initial_value(&first) {
        return Ok(());
    }
    text.fill(0);
    Err(Fault::WrapIntegrity)
}

/// Wraps a text with padding into `wrapped`, which is eight bytes longer than the padded text (RFC 5649, 4.1). Faults, in this
/// order: `WrapLength` for an empty text, `TextTooLong` past 2^32 - 1 bytes. On a fault nothing is written.
pub fn wrap_padded_to(key: &AesKey, text: &[u8], wrapped: &mut [u8]) -> Result<(), Fault> {
    if text.is_empty() {
        return Err(Fault::WrapLength);
    }
    if text.len() as u64 >= 1 << 32 {
        return Err(Fault::TextTooLong);
    }
    let zeros = wrapped.len() - 8 - text.len();
    wrapped[8..8 + text.len()].copy_from_slice(text);
    wrapped[..8].copy_from_slice(&alternative_value(text.len() as u32));
    wrapped[8 + text.len()..].copy_from_slice(&[0; 8][..zeros]);
    encrypt_register(key, wrapped);
    Ok(())
}

/// Unwraps with padding into `text`, which is eight bytes shorter than the wrapping (RFC 5649, 4.2), and returns the text's
/// length: `text` becomes the text and the zeros of its padding. Faults, in this order: `WrapLength` if the wrapping's length
/// is under 16 or not a multiple of 8, `TextTooLong` past 2^32 + 8 bytes, `WrapIntegrity` if the bytes are not a valid
/// wrapping with padding under this key. On `WrapIntegrity` the whole of `text` is zeros; on another fault nothing is written.
pub fn unwrap_padded_to(key: &AesKey, wrapped: &[u8], text: &mut [u8]) -> Result<usize, Fault> {
    if !has_blocks(wrapped) {
        return Err(Fault::WrapLength);
    }
    if wrapped.len() as u64 > (1 << 32) + 8 {
        return Err(Fault::TextTooLong);
    }
    let mut first = first_eight(wrapped);
    text.copy_from_slice(&wrapped[8..]);
    match unwrap_padded_register(key, &mut first, text) {
        Some(length) => Ok(length),
        None => {
            text.fill(0);
            Err(Fault::WrapIntegrity)
        }
    }
}
