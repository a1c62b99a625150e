// Made from crates/aeadkit/src/tests/devices.rt by tools/erase: not to be edited.
//! One file in memory, a writer that fails, one that halts, and one that has to be flushed.

use crate::command::{Identity, Storage};
use crate::kit::alloc::Vec;
use aeadkit::internals::octets::{FromRead, ToWrite};
use std::io;

/// A file that stands at every path. If it opens, it gives its bytes, and then ends or fails with its failure. If not,
/// opening it fails with its failure.
pub struct OneFile<'a> {
    pub opens: bool,
    pub bytes: &'a [u8],
    pub failure: Option<io::ErrorKind>,
}

/// No files: each opening fails.
pub const NO_FILES: OneFile<'static> = OneFile { opens: false, bytes: b"", failure: Some(io::ErrorKind::NotFound) };

impl<'a> Storage for OneFile<'a> {
    type Input = FromRead<Source<'a>>;

    type Output = ToWrite<FailsAfter>;

    fn open(&self, _path: &str, _reading: u8) -> io::Result<FromRead<Source<'a>>> {
        match self.failure {
            Some(kind) if !self.opens => Err(io::Error::from(kind)),
            failure => Ok(FromRead::new(Source { rest: self.bytes, failure })),
        }
    }

    fn identity(&self, _path: &str) -> Option<Identity> {
        None
    }

    fn create(&self, _path: &str) -> io::Result<ToWrite<FailsAfter>> {
        Err(io::Error::from(io::ErrorKind::PermissionDenied))
    }

    fn sync(&self, _output: &ToWrite<FailsAfter>) -> io::Result<()> {
        Ok(())
    }
}

/// The bytes that are left in a reading, and the failure that follows them, if any.
pub struct Source<'a> {
    rest: &'a [u8],
    failure: Option<io::ErrorKind>,
}

impl io::Read for Source<'_> {
    fn read(&mut self, buf: &mut [u8]) -> io::Result<usize> {
        match self.failure {
            Some(kind) if self.rest.is_empty() => Err(io::Error::from(kind)),
            _ => {
                let n = buf.len().min(self.rest.len());
                let (front, back) = self.rest.split_at(n);
                buf[..n].copy_from_slice(front);
                self.rest = back;
                Ok(n)
            }
        }
    }
}

/// A writer that takes `room` bytes and then fails.
pub struct FailsAfter {
    pub room: usize,
    pub kind: io::ErrorKind,
}

impl io::Write for FailsAfter {
    fn write(&mut self, buf: &[u8]) -> io::Result<usize> {
        let count = self.room.min(buf.len());
        self.room -= count;
        if count == 0 { Err(io::Error::from(self.kind)) } else { Ok(count) }
    }

    fn flush(&mut self) -> io::Result<()> {
        Ok(())
    }
}

/// A writer that takes one byte at every second write. The other writes are interrupted.
pub struct Halting {
    pub bytes: Vec<u8>,
    pub is_interrupted: bool,
}

impl io::Write for Halting {
    fn write(&mut self, buf: &[u8]) -> io::Result<usize> {
        self.is_interrupted = !self.is_interrupted;
        if self.is_interrupted {
            return Err(io::Error::from(io::ErrorKind::Interrupted));
        }
        let Some(byte) = buf.first() else {
            return Ok(0);
        };
        self.bytes.push(*byte)?;
        Ok(1)
    }

    fn flush(&mut self) -> io::Result<()> {
        Ok(())
    }
}

/// A writer that takes all bytes and counts them until it is flushed. Flushing may fail.
pub struct Waiting {
    pub count: usize,
    pub flush_fails: bool,
}

impl io::Write for Waiting {
    fn write(&mut self, buf: &[u8]) -> io::Result<usize> {
        self.count = self.count.saturating_add(buf.len());
        Ok(buf.len())
    }

    fn flush(&mut self) -> io::Result<()> {
        if self.flush_fails {
            return Err(io::Error::from(io::ErrorKind::StorageFull));
        }
        self.count = 0;
        Ok(())
    }
}
