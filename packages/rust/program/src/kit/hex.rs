//! The crate `hex`, in memory of an allocator.

use super::String;
use super::alloc::{AllocError, Allocator, Vec};

#[derive(Debug)]
pub enum FromHexError {
    OutOfMemory,
    Invalid,
}

impl From<AllocError> for FromHexError {
    fn from(_: AllocError) -> FromHexError {
        FromHexError::OutOfMemory
    }
}

/// The bytes that an even number of digits of either case spell.
pub fn decode<A: Allocator>(alloc: A, digits: &str) -> Result<Vec<u8, A>, FromHexError> {
    if !digits.len().is_multiple_of(2) {
        return Err(FromHexError::Invalid);
    }
    let mut bytes = Vec::filled(alloc, 0, digits.len() / 2)?;
    hex::decode_to_slice(digits, &mut bytes).map_err(|_| FromHexError::Invalid)?;
    Ok(bytes)
}

/// The bytes in digits of lower case.
pub fn encode<A: Allocator>(alloc: A, bytes: impl AsRef<[u8]>) -> Result<String<A>, AllocError> {
    let bytes = bytes.as_ref();
    let mut digits = Vec::filled(alloc, 0, bytes.len().checked_mul(2).ok_or(AllocError)?)?;
    hex::encode_to_slice(bytes, &mut digits).expect("there are two digits for each byte");
    Ok(String::of_digits(digits))
}
