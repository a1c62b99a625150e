// Made from crates/command/src/failure.rt by tools/erase: not to be edited.
//! Why the program stops without doing what was asked, and with which status.

use crate::kit::alloc::AllocError;
use crate::vectors::VectorFault;
use aeadkit::internals::octets::Fault;
use std::io::ErrorKind;
use std::{fmt, io};

/// Why the program stops. `Display` writes the text that follows `aeadkit: ` on standard error: a name, or the text of a fault.
#[derive(Clone, Copy)]
pub enum Failure {
    /// The words are not a valid command line.
    Words,
    /// No suite has this name.
    UnknownSuite,
    /// A hexadecimal value is not an even number of hex digits.
    BadHex,
    /// A call was refused, a read or a write failed, or an allocation failed.
    Fault(Fault),
    /// A file is not a vector file, so it has no report.
    Vector(VectorFault),
}

impl fmt::Display for Failure {
    fn fmt(&self, f: &mut fmt::Formatter<'_>) -> fmt::Result {
        match self {
            Failure::Words => f.write_str("Words"),
            Failure::UnknownSuite => f.write_str("UnknownSuite"),
            Failure::BadHex => f.write_str("BadHex"),
            Failure::Fault(fault) => fmt::Display::fmt(fault, f),
            Failure::Vector(fault) => fmt::Display::fmt(fault, f),
        }
    }
}

impl Failure {
    /// Returns the status that the program ends with, from 1 to 4.
    pub fn status(self) -> u8 {
        match self {
            Failure::Words | Failure::UnknownSuite | Failure::BadHex => 2,
            Failure::Fault(fault) => match fault {
                Fault::TooShort | Fault::TagMismatch | Fault::WrapIntegrity => 1,
                Fault::KeyLength
                | Fault::NonceLength
                | Fault::TextTooLong
                | Fault::AadTooLong
                | Fault::WrapLength
                | Fault::StreamEnd => 2,
                Fault::Read | Fault::Write | Fault::SourceChanged => 3,
                Fault::OutOfMemory => 4,
            },
            Failure::Vector(fault) => match fault {
                VectorFault::OutOfMemory => 4,
                _ => 1,
            },
        }
    }
}

impl From<Fault> for Failure {
    fn from(fault: Fault) -> Failure {
        Failure::Fault(fault)
    }
}

impl From<AllocError> for Failure {
    fn from(_error: AllocError) -> Failure {
        Failure::Fault(Fault::OutOfMemory)
    }
}

// Returns the fault of a failed read or write: `OutOfMemory` if that is its kind, else the given fault.
pub(in crate::command) fn fault_of(error: &io::Error, otherwise: Fault) -> Fault {
    match error.kind() {
        ErrorKind::OutOfMemory => Fault::OutOfMemory,
        _ => otherwise,
    }
}
