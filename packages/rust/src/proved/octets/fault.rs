// Made from crates/octets/src/fault.rt by tools/erase: not to be edited.
//! The faults of every call, their names, and the numbers that stand for them at C.

use crate::kit::alloc::AllocError;
use core::error::Error;
use core::fmt;

/// Why a call was refused. `Display` writes the fault's name, such as `TagMismatch`.
#[derive(Clone, Copy, Debug, PartialEq, Eq)]
pub enum Fault {
    /// The key length is invalid for this cipher.
    KeyLength,
    /// The nonce is not 12 bytes long.
    NonceLength,
    /// The text is longer than its limit.
    TextTooLong,
    /// The associated data is longer than its limit.
    AadTooLong,
    /// The sealed bytes are shorter than a tag, which is 16 bytes long.
    TooShort,
    /// Authentication failed: the bytes are not a valid sealing under this key, nonce and associated data.
    TagMismatch,
    /// The length is not one that can be wrapped, or not that of a wrapping.
    WrapLength,
    /// Authentication failed: the bytes are not a valid wrapping under this key.
    WrapIntegrity,
    /// An allocation failed in this call.
    OutOfMemory,
    /// A block with a counter above 2^32 - 1 would be needed.
    StreamEnd,
    /// A read failed in this call.
    Read,
    /// A write failed in this call.
    Write,
    /// A later reading of an input differs from an earlier one.
    SourceChanged,
}

// By hand: what `thiserror` derives has no contract, so two exchanged names would pass.
impl fmt::Display for Fault {
    fn fmt(&self, f: &mut fmt::Formatter<'_>) -> fmt::Result {
        f.write_str(match self {
            Fault::KeyLength => "KeyLength",
            Fault::NonceLength => "NonceLength",
            Fault::TextTooLong => "TextTooLong",
            Fault::AadTooLong => "AadTooLong",
            Fault::TooShort => "TooShort",
            Fault::TagMismatch => "TagMismatch",
            Fault::WrapLength => "WrapLength",
            Fault::WrapIntegrity => "WrapIntegrity",
            Fault::OutOfMemory => "OutOfMemory",
            Fault::StreamEnd => "StreamEnd",
            Fault::Read => "Read",
            Fault::Write => "Write",
            Fault::SourceChanged => "SourceChanged",
        })
    }
}

impl Error for Fault {}

/// A failed allocation is `OutOfMemory`.
impl From<AllocError> for Fault {
    fn from(_error: AllocError) -> Fault {
        Fault::OutOfMemory
    }
}

/// Returns the number that stands for an outcome at C: 0 if the call succeeded, else the fault's position in `Fault`, counted
/// from 1.
pub fn outcome_number(outcome: Result<(), Fault>) -> u32 {
    match outcome {
        Ok(()) => 0,
        Err(Fault::KeyLength) => 1,
        Err(Fault::NonceLength) => 2,
        Err(Fault::TextTooLong) => 3,
        Err(Fault::AadTooLong) => 4,
        Err(Fault::TooShort) => 5,
        Err(Fault::TagMismatch) => 6,
        Err(Fault::WrapLength) => 7,
        Err(Fault::WrapIntegrity) => 8,
        Err(Fault::OutOfMemory) => 9,
        Err(Fault::StreamEnd) => 10,
        Err(Fault::Read) => 11,
        Err(Fault::Write) => 12,
        Err(Fault::SourceChanged) => 13,
    }
}
