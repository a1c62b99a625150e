// Made from crates/command/src/new_file.rt by tools/erase: not to be edited.
//! The file that a command writes.

use crate::command::storage::Storage;
use crate::kit::alloc::{AllocError, Allocator, Vec};
use aeadkit::internals::octets::{DeviceFault, Failures, Fault, Outlet};

// How many bytes may be pending before they are written.
const PENDING: usize = 65536;

/// A file that is created or truncated when its first byte is given, or at the end if none was. Bytes are written once 64 KiB
/// are pending. A failure of the system, including an interrupted call, is a failure of the device.
// It is not std's `BufWriter`, which tries an interrupted write again and writes when it is dropped: so after a failure too the
// file holds a prefix of the output.
pub(in crate::command) struct NewFile<'a, F: Storage, A: Allocator> {
    files: &'a F,
    path: &'a str,
    file: Option<F::Output>,
    pending: Vec<u8, A>,
    written: usize,
    failures: Failures,
}

impl<'a, F: Storage, A: Allocator> NewFile<'a, F, A> {
    /// Makes a device for a file, without making the file, and allocates memory for the pending bytes.
    pub(in crate::command) fn new(alloc: A, files: &'a F, path: &'a str) -> Result<Self, AllocError> {
        Ok(NewFile {
            files,
            path,
            file: None,
            pending: Vec::with_capacity(alloc, PENDING)?,
            written: 0,
            failures: Failures::none(),
        })
    }

    // Makes the file if it is not made yet.
    fn make(&mut self) -> Result<(), DeviceFault> {
        if self.file.is_none() {
            match self.files.create(self.path) {
                Ok(file) => self.file = Some(file),
                Err(_) => return Err(DeviceFault),
            }
        }
        Ok(())
    }

    // Writes some of the pending bytes.
    fn write_some(&mut self) -> Result<(), DeviceFault> {
        match &mut self.file {
            Some(file) => match file.give(&self.pending[self.written..]) {
                Ok(n) => {
                    self.written += n;
                    Ok(())
                }
                Err(fault) => Err(fault),
            },
            None => Err(DeviceFault),
        }
    }

    // Writes all pending bytes.
    fn write_pending(&mut self) -> Result<(), DeviceFault> {
        while self.written < self.pending.len() {
            self.write_some()?;
        }
        self.pending.clear();
        self.written = 0;
        Ok(())
    }

    // Adds bytes to the pending ones, if there is room for them.
    fn add(&mut self, bytes: &[u8]) {
        // This can't fail: within the capacity nothing is allocated.
        let _ = self.pending.extend_from_slice(bytes);
    }

    // Adds as many of the bytes to the pending ones as there is room for. If there is no room, writes the pending bytes first.
    fn keep(&mut self, bytes: &[u8]) -> Result<usize, DeviceFault> {
        if bytes.is_empty() {
            return Ok(0);
        }
        self.make()?;
        if self.pending.len() == self.pending.capacity() {
            self.write_pending()?;
        }
        let room = self.pending.capacity() - self.pending.len();
        let n = bytes.len().min(room);
        self.add(&bytes[..n]);
        Ok(n)
    }

    /// Makes the file if no byte was given, writes the pending bytes, and syncs the file. The only fault is `Write`.
    pub(in crate::command) fn finish(&mut self) -> Result<(), Fault> {
        if self.make().is_err() || self.write_pending().is_err() {
            return Err(Fault::Write);
        }
        match &self.file {
            Some(file) if self.files.sync(file).is_ok() => Ok(()),
            _ => Err(Fault::Write),
        }
    }
}

impl<F: Storage, A: Allocator> Outlet for NewFile<'_, F, A> {
    fn give(&mut self, bytes: &[u8]) -> Result<usize, DeviceFault> {
        match self.keep(bytes) {
            Ok(n) => Ok(n),
            Err(_) => {
                self.failures.add();
                Err(DeviceFault)
            }
        }
    }
}
