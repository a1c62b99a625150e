// Made from crates/capi/src/key_wrap.rt by tools/erase: not to be edited.
//! Key wrap for C (RFC 3394; RFC 5649), into another output. Each call computes the schedule of the wrapping key anew.

use crate::proved::aes::AesKey;
use crate::proved::capi::suites::OUTPUT_LENGTH;
use crate::proved::keywrap::{unwrap_padded_to, unwrap_to, wrap_padded_to, wrap_to};
use crate::proved::octets::{Fault, outcome_number};

/// Wraps a text into `wrapped`, which is 8 bytes longer than the text (RFC 3394, 2.2.1). Returns 0, or the first of these that
/// applies: `KeyLength` if the key is not 16, 24 or 32 bytes long, `WrapLength` if the text is shorter than 16 bytes or its
/// length is not a multiple of 8, `OUTPUT_LENGTH` if `wrapped` is not 8 bytes longer than the text. On each of them nothing is
/// written.
pub fn aeadkit_wrap(key: &[u8], text: &[u8], wrapped: &mut [u8]) -> u32 {
    match AesKey::from_slice(key) {
        Ok(key) => {
            if text.len() < 16 || text.len() % 8 != 0 {
                return outcome_number(Err(Fault::WrapLength));
            }
            if wrapped.len() != text.len() + 8 {
                return OUTPUT_LENGTH;
            }
            outcome_number(wrap_to(&key, text, wrapped))
        }
        Err(fault) => outcome_number(Err(fault)),
    }
}

/// Unwraps into `text`, which is 8 bytes shorter than the wrapping (RFC 3394, 2.2.2). Returns 0, or the first of these that
/// applies: `KeyLength` if the key is not 16, 24 or 32 bytes long, `WrapLength` if the wrapping is shorter than 24 bytes or its
/// length is not a multiple of 8, `OUTPUT_LENGTH` if `text` is not 8 bytes shorter than the wrapping, `WrapIntegrity` if the
/// bytes are not a valid wrapping under this key. On `WrapIntegrity` the whole of `text` is zeros; on the others nothing is
/// written.
pub fn aeadkit_unwrap(key: &[u8], wrapped: &[u8], text: &mut [u8]) -> u32 {
    match AesKey::from_slice(key) {
        Ok(key) => {
            if wrapped.len() < 24 || wrapped.len() % 8 != 0 {
                return outcome_number(Err(Fault::WrapLength));
            }
            if text.len() != wrapped.len() - 8 {
                return OUTPUT_LENGTH;
            }
            outcome_number(unwrap_to(&key, wrapped, text))
        }
        Err(fault) => outcome_number(Err(fault)),
    }
}

/// Wraps a text with padding into `wrapped`, which is 8 bytes longer than the padded text (RFC 5649, 4.1). Returns 0, or the
/// first of these that applies: `KeyLength` if the key is not 16, 24 or 32 bytes long, `WrapLength` if the text is empty,
/// `TextTooLong` if it is longer than 2^32 - 1 bytes, `OUTPUT_LENGTH` if `wrapped` is not 8 bytes longer than the padded text. On
/// each of them nothing is written.
pub fn aeadkit_wrap_padded(key: &[u8], text: &[u8], wrapped: &mut [u8]) -> u32 {
    match AesKey::from_slice(key) {
        Ok(key) => {
            if text.len() == 0 {
                return outcome_number(Err(Fault::WrapLength));
            }
            if text.len() as u64 >= 1 << 32 {
                return outcome_number(Err(Fault::TextTooLong));
            }
            if wrapped.len() != 8 + (text.len() + (8 - text.len() % 8) % 8) {
                return OUTPUT_LENGTH;
            }
            outcome_number(wrap_padded_to(&key, text, wrapped))
        }
        Err(fault) => outcome_number(Err(fault)),
    }
}

/// Unwraps with padding into `text`, which is 8 bytes shorter than the wrapping (RFC 5649, 4.2): `text` becomes the text and the
/// zeros of its padding, and `text_length` the text's length. Returns 0, or the first of these that applies: `KeyLength` if the
/// key is not 16, 24 or 32 bytes long, `WrapLength` if the wrapping is shorter than 16 bytes or its length is not a multiple of
/// 8, `TextTooLong` if it is longer than 2^32 + 8 bytes, `OUTPUT_LENGTH` if `text` is not 8 bytes shorter than the wrapping,
/// `WrapIntegrity` if the bytes are not a valid wrapping with padding under this key. On `WrapIntegrity` the whole of `text` is
/// zeros; on the others nothing is written. On each of them `text_length` is as it was.
pub fn aeadkit_unwrap_padded(key: &[u8], wrapped: &[u8], text: &mut [u8], text_length: &mut usize) -> u32 {
    match AesKey::from_slice(key) {
        Ok(key) => {
            if wrapped.len() < 16 || wrapped.len() % 8 != 0 {
                return outcome_number(Err(Fault::WrapLength));
            }
            if wrapped.len() as u64 > (1 << 32) + 8 {
                return outcome_number(Err(Fault::TextTooLong));
            }
            if text.len() != wrapped.len() - 8 {
                return OUTPUT_LENGTH;
            }
            match unwrap_padded_to(&key, wrapped, text) {
                Ok(length) => {
                    *text_length = length;
                    outcome_number(Ok(()))
                }
                Err(fault) => outcome_number(Err(fault)),
            }
        }
        Err(fault) => outcome_number(Err(fault)),
    }
}
