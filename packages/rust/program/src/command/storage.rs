// Made from crates/command/src/storage.rt by tools/erase: not to be edited.
//! Files by name.

use crate::command::file_intake::{FileIntake, regular_length};
use crate::command::identity::Identity;
use crate::kit::alloc::Allocator;
use crate::kit::fs;
use crate::kit::fs::Files;
use crate::kit::fs::OpenFile;
use crate::kit::io::BufReader;
use aeadkit::internals::octets::{Intake, Outlet, ToWrite};
use std::io;
use std::io::ErrorKind;

// How many bytes a reading requests from the system at a time.
const AHEAD: usize = 65536;

/// A place for the files of the program.
pub trait Storage {
    /// A file that is open for reading.
    type Input: Intake;

    /// A file that is open for writing.
    type Output: Outlet;

    /// Opens a file for a reading, at its beginning.
    fn open(&self, path: &str, reading: u8) -> io::Result<Self::Input>;

    /// Returns the identity of the file that a path leads to, or `None` if there is no file that can be compared.
    fn identity(&self, path: &str) -> Option<Identity>;

    /// Creates a file, or truncates it.
    fn create(&self, path: &str) -> io::Result<Self::Output>;

    /// Waits until the bytes that were written have reached the device that stores them, if there is one.
    fn sync(&self, output: &Self::Output) -> io::Result<()>;
}

/// The files that a runtime has access to. Each reading allocates a buffer. A reading of a regular file fails if the file
/// ends before the length that it had when it was opened.
pub struct Disk<'a, R: Files, A: Allocator> {
    pub runtime: &'a R,
    pub alloc: A,
}

impl<R: Files, A: Allocator + Copy> Storage for Disk<'_, R, A> {
    type Input = FileIntake<BufReader<R::File, A>>;

    type Output = ToWrite<R::File>;

    fn open(&self, path: &str, _reading: u8) -> io::Result<FileIntake<BufReader<R::File, A>>> {
        let file = fs::open(self.runtime, path)?;
        let length = regular_length(&file);
        let reader = BufReader::with_capacity(self.alloc, AHEAD, file)?;
        Ok(FileIntake::new(reader, length))
    }

    // If the system doesn't say what a path leads to, there is no file yet, or opening it says why.
    fn identity(&self, path: &str) -> Option<Identity> {
        match fs::metadata(self.runtime, path) {
            Ok(about) => Identity::of(&about),
            Err(_) => None,
        }
    }

    fn create(&self, path: &str) -> io::Result<ToWrite<R::File>> {
        Ok(ToWrite::new(fs::create(self.runtime, path)?))
    }

    // An output that can't be synced, such as a pipe or a terminal, is not a fault.
    fn sync(&self, output: &ToWrite<R::File>) -> io::Result<()> {
        match output.get_ref().sync_all() {
            Err(error) if error.kind() == ErrorKind::InvalidInput => Ok(()),
            result => result,
        }
    }
}
