// Made from crates/keywrap/src/padded_in_place.rt by tools/erase: not to be edited.
//! Wrapping and unwrapping with padding in the caller's bytes (RFC 5649, 4.1 and 4.2). Nothing is allocated.

use crate::proved::aes::AesKey;
use crate::proved::keywrap::padded::{alternative_value, encrypt_register, has_blocks, unwrap_padded_register};
use crate::proved::keywrap::steps::first_eight;
use crate::proved::octets::Fault;

// Whether the bytes have exactly the room for A and for a text of this length with its padding.
fn has_padded_room(bytes: &[u8], text_length: usize) -> bool {
    bytes.len() >= 16
        && bytes.len() % 8 == 0
        && text_length != 0
        && text_length <= bytes.len() - 8
        && bytes.len() - 8 - text_length < 8
}

/// Wraps a text with padding in place (RFC 5649, 4.1). `bytes` are eight bytes of room for A, the text of `text_length` bytes,
/// and the fewest bytes of room that make the length a multiple of 8; they become the wrapping. The room is overwritten.
/// Faults, in this order: `WrapLength` if the text is empty or the room has another length, `TextTooLong` if the text is longer
/// than 2^32 - 1 bytes. On a fault no byte is changed.
pub fn wrap_padded_in_place(key: &AesKey, bytes: &mut [u8], text_length: usize) -> Result<(), Fault> {
    if !has_padded_room(bytes, text_length) {
        return Err(Fault::WrapLength);
    }
    if text_length as u64 >= 1 << 32 {
        return Err(Fault::TextTooLong);
    }
    let zeros = bytes.len() - 8 - text_length;
    bytes[..8].copy_from_slice(&alternative_value(text_length as u32));
    bytes[8 + text_length..].copy_from_slice(&[0; 8][..zeros]);
    encrypt_register(key, bytes);
    Ok(())
}

/// Unwraps with padding in place (RFC 5649, 4.2), and returns the text's length. `bytes` are a wrapping; they become the
/// alternative initial value, the text, which begins at offset 8, and the zeros of its padding. Faults, in this order:
/// `WrapLength` if the length is under 16 or not a multiple of 8, `TextTooLong` if it is more than 2^32 + 8, `WrapIntegrity` if
/// the bytes are not a valid wrapping with padding under this key. On a fault the bytes are as they were.
pub fn unwrap_padded_in_place(key: &AesKey, bytes: &mut [u8]) -> Result<usize, Fault> {
    if !has_blocks(bytes) {
        return Err(Fault::WrapLength);
    }
    if bytes.len() as u64 > (1 << 32) + 8 {
        return Err(Fault::TextTooLong);
    }
    let mut first = first_eight(bytes);
    let found = unwrap_padded_register(key, &mut first, &mut bytes[8..]);
    bytes[..8].copy_from_slice(&first);
    match found {
        Some(length) => Ok(length),
        None => {
            encrypt_register(key, bytes);
            Err(Fault::WrapIntegrity)
        }
    }
}
