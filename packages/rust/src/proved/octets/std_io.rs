// Made from crates/octets/src/std_io.rt by tools/erase: not to be edited.
//! Devices over the readers and writers of std.

use crate::proved::octets::device::{DeviceFault, Intake, Outlet};
use crate::proved::octets::failures::Failures;
use std::io::{Read, Write};

/// Takes from a reader, and counts its failures. An interrupted read is a failure. Contracts know the bytes left if they know
/// those of the reader.
pub struct FromRead<R> {
    reader: R,
    failures: Failures,
}

impl<R: Read> FromRead<R> {
    /// Makes a device with the bytes that the reader has left, and no failures yet.
    pub fn new(reader: R) -> Self {
        FromRead { reader, failures: Failures::none() }
    }
}

impl<R: Read> Intake for FromRead<R> {
    fn take(&mut self, buf: &mut [u8]) -> Result<usize, DeviceFault> {
        match self.reader.read(buf) {
            Ok(n) => Ok(n),
            Err(_) => {
                self.failures.add();
                Err(DeviceFault)
            }
        }
    }
}

/// Gives to a writer, and counts its failures. An interrupted write is a failure, and so is a write of 0 bytes from a slice
/// that is not empty. Contracts know the bytes taken if they know those of the writer.
pub struct ToWrite<W> {
    writer: W,
    failures: Failures,
}

impl<W: Write> ToWrite<W> {
    /// Makes a device that has taken the bytes that the writer holds, with no failures yet.
    pub fn new(writer: W) -> Self {
        ToWrite { writer, failures: Failures::none() }
    }

    /// Returns the writer.
    pub fn get_ref(&self) -> &W {
        &self.writer
    }
}

impl<W: Write> Outlet for ToWrite<W> {
    fn give(&mut self, bytes: &[u8]) -> Result<usize, DeviceFault> {
        match self.writer.write(bytes) {
            Ok(n) if 0 < n || bytes.is_empty() => Ok(n),
            _ => {
                self.failures.add();
                Err(DeviceFault)
            }
        }
    }
}
