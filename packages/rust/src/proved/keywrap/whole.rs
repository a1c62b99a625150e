// Made from crates/keywrap/src/whole.rt by tools/erase: not to be edited.
//! Wrapping and unwrapping into a new vector (RFC 3394, 2.2).

use crate::kit::alloc::{Allocator, Vec};
use crate::proved::aes::AesKey;
use crate::proved::keywrap::steps::{
    INITIAL_VALUE, first_eight, has_wrapped_length, is_initial_value, unwrap_blocks, wrap_register,
};
use crate::proved::octets::Fault;

/// Returns the wrapping of a text, eight bytes longer than it (RFC 3394, 2.2.1). Faults, in this order: `WrapLength` if the
/// text is not at least two whole blocks of eight bytes, `OutOfMemory` if the allocation of the result fails.
pub fn wrap<A: Allocator>(alloc: A, key: &AesKey, text: &[u8]) -> Result<Vec<u8, A>, Fault> {
    if text.len() < 16 || text.len() % 8 != 0 {
        return Err(Fault::WrapLength);
    }
    let mut wrapped = Vec::with_capacity(alloc, text.len() + 8)?;
    wrapped.extend_from_slice(&INITIAL_VALUE)?;
    wrapped.extend_from_slice(text)?;
    wrap_register(key, &mut wrapped);
    Ok(wrapped)
}

/// Returns the text of a wrapping, eight bytes shorter than it (RFC 3394, 2.2.2). Faults, in this order: `WrapLength` if the
/// length is under 24 or not a multiple of 8, `OutOfMemory` if the allocation of the text fails, `WrapIntegrity` if the bytes
/// are not a valid wrapping under this key.
pub fn unwrap<A: Allocator>(alloc: A, key: &AesKey, wrapped: &[u8]) -> Result<Vec<u8, A>, Fault> {
    if !has_wrapped_length(wrapped) {
        return Err(Fault::WrapLength);
    }
    let mut first = first_eight(wrapped);
    let mut text = Vec::from_slice(alloc, &wrapped[8..])?;
    unwrap_blocks(key, &mut first, &mut text);
    if is_initial_value(&first) { Ok(text) } else { Err(Fault::WrapIntegrity) }
}
