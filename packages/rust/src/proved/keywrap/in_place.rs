// Made from crates/keywrap/src/in_place.rt by tools/erase: not to be edited.
//! Wrapping and unwrapping in the caller's bytes (RFC 3394, 2.2). Nothing is allocated.

use crate::proved::aes::AesKey;
use crate::proved::keywrap::steps::{
    INITIAL_VALUE, first_eight, has_wrapped_length, is_initial_value, unwrap_register, wrap_register,
};
use crate::proved::octets::Fault;

/// Wraps a text in place (RFC 3394, 2.2.1). `bytes` are eight bytes of room for A, which are overwritten, and then the text;
/// they become its wrapping. Returns `WrapLength` if the length is under 24 or not a multiple of 8; then no byte is changed.
pub fn wrap_in_place(key: &AesKey, bytes: &mut [u8]) -> Result<(), Fault> {
    if has_wrapped_length(bytes) {
        bytes[..8].copy_from_slice(&INITIAL_VALUE);
        wrap_register(key, bytes);
        Ok(())
    } else {
        Err(Fault::WrapLength)
    }
}

/// Unwraps in place (RFC 3394, 2.2.2). `bytes` are a wrapping; they become the default initial value, a6 eight times, and the
/// text, which begins at offset 8. Faults, in this order: `WrapLength` if the length is under 24 or not a multiple of 8,
/// `WrapIntegrity` if the bytes are not a valid wrapping under this key. On a fault the bytes are as they were. Not constant
/// time: see the crate's page.
pub fn unwrap_in_place(key: &AesKey, bytes: &mut [u8]) -> Result<(), Fault> {
    if !has_wrapped_length(bytes) {
        return Err(Fault::WrapLength);
    }
    unwrap_register(key, bytes);
    if is_initial_value(&first_eight(bytes)) {
        return Ok(());
    }
    wrap_register(key, bytes);
    Err(Fault::WrapIntegrity)
}
