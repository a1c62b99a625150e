// Made from crates/aeadkit/src/tests/of_command/scripted_files.rt by tools/erase: not to be edited.
//! Files in memory, one of whose calls goes wrong.

use crate::command::{Identity, Storage};
use crate::kit::alloc::{Global, Vec};
use aeadkit::internals::octets::{FromRead, ToWrite};
use std::cell::{Cell, RefCell};
use std::io;

/// A way in which a call goes wrong.
#[derive(Clone, Copy)]
pub enum Wrong {
    /// The call fails.
    Fails,
    /// The call is interrupted.
    IsInterrupted,
    /// The call moves one byte.
    IsShort,
}

/// The record of a run.
pub struct Log {
    /// How many calls were made: opens, reads, creations, writes and syncs.
    pub calls: Cell<u32>,
    /// The reading to which the call that went wrong belongs, if it belongs to one.
    pub reading: Cell<Option<u8>>,
    /// Whether the output file was created.
    pub made: Cell<bool>,
    /// Whether the output file was synced after its last byte.
    pub synced: Cell<bool>,
    /// The contents of the output file.
    pub written: RefCell<Vec<u8>>,
}

impl Log {
    /// The record before any call.
    pub fn new(alloc: Global) -> Log {
        Log {
            calls: Cell::new(0),
            reading: Cell::new(None),
            made: Cell::new(false),
            synced: Cell::new(false),
            written: RefCell::new(Vec::new(alloc)),
        }
    }

    /// Whether the output file was created and synced, and holds these bytes.
    pub fn holds(&self, bytes: &[u8]) -> bool {
        match self.written.try_borrow() {
            Ok(held) => self.made.get() && self.synced.get() && held.as_slice() == bytes,
            Err(_) => false,
        }
    }

    /// Whether the output file holds a beginning of these bytes.
    pub fn begins(&self, bytes: &[u8]) -> bool {
        match self.written.try_borrow() {
            Ok(held) => bytes.starts_with(held.as_slice()),
            Err(_) => false,
        }
    }
}

/// The number of the call that goes wrong, from 1 on or 0 for none, and how it goes wrong. With `trickle` each call
/// moves one byte.
#[derive(Clone, Copy)]
pub struct Script<'a> {
    pub at: u32,
    pub wrong: Wrong,
    pub trickle: bool,
    pub log: &'a Log,
}

impl<'a> Script<'a> {
    /// A script in which no call goes wrong.
    pub fn of_none(log: &'a Log) -> Script<'a> {
        Script { at: 0, wrong: Wrong::Fails, trickle: false, log }
    }

    // Counts a call, and returns how many bytes it may move, or its failure.
    fn step(&self, reading: Option<u8>, wanted: usize) -> io::Result<usize> {
        let call = self.log.calls.get().saturating_add(1);
        self.log.calls.set(call);
        if call == self.at {
            self.log.reading.set(reading);
            match self.wrong {
                Wrong::Fails => Err(io::Error::from(io::ErrorKind::Other)),
                Wrong::IsInterrupted => Err(io::Error::from(io::ErrorKind::Interrupted)),
                Wrong::IsShort => Ok(wanted.min(1)),
            }
        } else if self.trickle {
            Ok(wanted.min(1))
        } else {
            Ok(wanted)
        }
    }
}

/// An input file, the same at every path, and an output file.
pub struct Scripted<'b, 'l> {
    pub bytes: &'b [u8],
    pub script: Script<'l>,
}

/// The bytes that are left in a reading.
pub struct Source<'b, 'l> {
    reading: u8,
    rest: &'b [u8],
    script: Script<'l>,
}

/// The output file.
pub struct Sink<'l> {
    script: Script<'l>,
}

impl<'b, 'l> Scripted<'b, 'l> {
    /// Opens the file for a reading.
    pub fn source(&self, reading: u8) -> io::Result<Source<'b, 'l>> {
        let _ = self.script.step(Some(reading), 0)?;
        Ok(Source { reading, rest: self.bytes, script: self.script })
    }
}

impl<'b, 'l> Storage for Scripted<'b, 'l> {
    type Input = FromRead<Source<'b, 'l>>;

    type Output = ToWrite<Sink<'l>>;

    fn open(&self, _path: &str, reading: u8) -> io::Result<FromRead<Source<'b, 'l>>> {
        Ok(FromRead::new(self.source(reading)?))
    }

    fn identity(&self, _path: &str) -> Option<Identity> {
        None
    }

    fn create(&self, _path: &str) -> io::Result<ToWrite<Sink<'l>>> {
        let _ = self.script.step(None, 0)?;
        self.script.log.made.set(true);
        Ok(ToWrite::new(Sink { script: self.script }))
    }

    fn sync(&self, _output: &ToWrite<Sink<'l>>) -> io::Result<()> {
        let _ = self.script.step(None, 0)?;
        self.script.log.synced.set(true);
        Ok(())
    }
}

impl io::Read for Source<'_, '_> {
    fn read(&mut self, buf: &mut [u8]) -> io::Result<usize> {
        let wanted = buf.len().min(self.rest.len());
        let n = self.script.step(Some(self.reading), wanted)?;
        let (front, back) = self.rest.split_at(n);
        buf[..n].copy_from_slice(front);
        self.rest = back;
        Ok(n)
    }
}

impl io::Write for Sink<'_> {
    fn write(&mut self, buf: &[u8]) -> io::Result<usize> {
        let n = self.script.step(None, buf.len())?;
        self.script.log.synced.set(false);
        let Ok(mut held) = self.script.log.written.try_borrow_mut() else {
            return Err(io::Error::from(io::ErrorKind::Other));
        };
        match held.extend_from_slice(&buf[..n]) {
            Ok(()) => Ok(n),
            Err(_) => Err(io::Error::from(io::ErrorKind::OutOfMemory)),
        }
    }

    fn flush(&mut self) -> io::Result<()> {
        Ok(())
    }
}
