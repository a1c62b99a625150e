// Made from crates/vectors/src/fault.rt by tools/erase: not to be edited.
//! Why a vector file has no report: the first fault and its line.

use crate::kit::alloc::AllocError;
use core::error::Error;
use std::fmt;

/// The fault of a line. `Display` writes its name.
#[derive(Clone, Copy, Debug, PartialEq, Eq)]
pub enum Cause {
    /// The format line is expected, but the line is something else.
    BadFormat,
    /// A line of a record is expected, but the line is not a value line.
    BadLine,
    /// The line is a value line with another name than the expected one.
    WrongName,
    /// The value is not a suite of the format.
    UnknownSuite,
    /// The value is not an even number of hexadecimal digits.
    BadHex,
    /// The length of a key or a nonce is not that of the suite.
    BadLength,
    /// The value is not a list of cuts: rising numbers from 1 to the text's length, joined by commas.
    BadCuts,
}

impl fmt::Display for Cause {
    fn fmt(&self, f: &mut fmt::Formatter<'_>) -> fmt::Result {
        f.write_str(match self {
            Cause::BadFormat => "BadFormat",
            Cause::BadLine => "BadLine",
            Cause::WrongName => "WrongName",
            Cause::UnknownSuite => "UnknownSuite",
            Cause::BadHex => "BadHex",
            Cause::BadLength => "BadLength",
            Cause::BadCuts => "BadCuts",
        })
    }
}

/// Why a file has no report. Lines are numbered from 1. `Display` writes the name, and ` at line N` if the
/// fault has a line, as `BadHex at line 4`.
#[derive(Clone, Copy, Debug, PartialEq, Eq)]
pub enum VectorFault {
    /// The line with this number is at fault.
    AtLine(u64, Cause),
    /// No line is at fault, but there is no record.
    NoRecords,
    /// The file ends inside a record; the number is that of its last line.
    Unfinished(u64),
    /// An allocation failed in this call.
    OutOfMemory,
}

impl fmt::Display for VectorFault {
    fn fmt(&self, f: &mut fmt::Formatter<'_>) -> fmt::Result {
        match self {
            VectorFault::AtLine(line, cause) => write!(f, "{cause} at line {line}"),
            VectorFault::NoRecords => f.write_str("NoRecords"),
            VectorFault::Unfinished(line) => write!(f, "Unfinished at line {line}"),
            VectorFault::OutOfMemory => f.write_str("OutOfMemory"),
        }
    }
}

impl Error for VectorFault {}

impl From<AllocError> for VectorFault {
    fn from(_error: AllocError) -> VectorFault {
        VectorFault::OutOfMemory
    }
}
