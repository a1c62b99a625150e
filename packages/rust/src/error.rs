//! The error of every call, and the library's statuses.

use core::fmt;

/// Why a call failed.
#[derive(Clone, Copy, Debug, PartialEq, Eq, Hash)]
#[non_exhaustive]
pub enum Error {
    /// The key is not as long as the suite requires, or for key wrapping not 16, 24 or 32 bytes long.
    KeyLength,
    /// The text is longer than the suite's limit, or for wrapping with padding longer than 2^32 - 1 bytes.
    TextTooLong,
    /// The associated data is longer than the suite's limit.
    AadTooLong,
    /// The sealed bytes are shorter than a tag of 16 bytes.
    TooShort,
    /// Authentication failed: suite, key, nonce, associated data, ciphertext and tag do not belong together.
    TagMismatch,
    /// The length is not a multiple of 8, or it is too short. Each call says which lengths it takes.
    WrapLength,
    /// Authentication failed: the bytes are not a valid wrapping under this key.
    WrapIntegrity,
    /// The second pass over a ciphertext, or the second reading of a text, had other bytes than the first.
    SourceChanged,
    /// The call does not take the suite, or there is no suite of this name or number.
    UnknownSuite,
    /// The output is not as long as the result. Each call with an output says how long that is.
    OutputLength,
}

impl fmt::Display for Error {
    fn fmt(&self, f: &mut fmt::Formatter<'_>) -> fmt::Result {
        f.write_str(match self {
            Error::KeyLength => "the key has the wrong length",
            Error::TextTooLong => "the text is too long",
            Error::AadTooLong => "the associated data is too long",
            Error::TooShort => "the sealed bytes are shorter than a tag of 16 bytes",
            Error::TagMismatch => "authentication failed",
            Error::WrapLength => "the length is not a multiple of 8, or too short",
            Error::WrapIntegrity => "not a valid wrapping under this key",
            Error::SourceChanged => "the second pass differs from the first",
            Error::UnknownSuite => "there is no such suite, or the call does not take it",
            Error::OutputLength => "the output is not as long as the result",
        })
    }
}

impl core::error::Error for Error {}

/// Returns the result that a status of the library stands for.
///
/// Three statuses cannot come: 2, for a nonce that is not 12 bytes long; 15, for a struct that was not begun; and 17, for an
/// output that overlaps another argument, which references exclude.
pub(crate) fn result(status: u32) -> Result<(), Error> {
    match status {
        0 => Ok(()),
        1 => Err(Error::KeyLength),
        3 => Err(Error::TextTooLong),
        4 => Err(Error::AadTooLong),
        5 => Err(Error::TooShort),
        6 => Err(Error::TagMismatch),
        7 => Err(Error::WrapLength),
        8 => Err(Error::WrapIntegrity),
        13 => Err(Error::SourceChanged),
        14 => Err(Error::UnknownSuite),
        16 => Err(Error::OutputLength),
        other => unreachable!("the library returned the status {other}"),
    }
}
