// Made from crates/command/src/file_intake.rt by tools/erase: not to be edited.
//! The intake over a file of the system.

use crate::kit::fs::OpenFile;
use aeadkit::internals::octets::{DeviceFault, Failures, Intake};
use std::io::Read;

/// Takes from a reader of a file. If the file ends before the length that it had when it was opened, it was truncated
/// meanwhile, and that is a failure; so is an interrupted read. Contracts know the bytes left if they know those of the reader.
pub struct FileIntake<R> {
    reader: R,
    // How many bytes of that length have not been read yet. Without it, sealing a file that is truncated meanwhile
    // would end with status 0 and a part of the text.
    owed: u64,
    failures: Failures,
}

impl<R: Read> FileIntake<R> {
    // Makes a device with the bytes that the reader has left, which are at least `owed`, and no failures yet.
    pub(in crate::command) fn new(reader: R, owed: u64) -> Self {
        FileIntake { reader, owed, failures: Failures::none() }
    }
}

impl<R: Read> Intake for FileIntake<R> {
    fn take(&mut self, buf: &mut [u8]) -> Result<usize, DeviceFault> {
        match self.reader.read(buf) {
            Ok(n) if 0 < n || buf.is_empty() || self.owed == 0 => {
                self.owed = self.owed.saturating_sub(n as u64);
                Ok(n)
            }
            _ => {
                self.failures.add();
                Err(DeviceFault)
            }
        }
    }
}

// Returns the length of a regular file, or 0 for any other file and if the system doesn't tell the length.
pub(in crate::command) fn regular_length<F: OpenFile>(file: &F) -> u64 {
    match file.metadata() {
        Ok(about) if about.is_file() => about.len(),
        _ => 0,
    }
}
