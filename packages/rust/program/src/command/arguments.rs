// Made from crates/command/src/arguments.rt by tools/erase: not to be edited.
//! The words after the program's name.

use crate::command::failure::Failure;
use crate::kit::alloc::{Global, Vec};
use crate::kit::env::Env;
use crate::kit::env::FillError;
use crate::kit::{String, env};
use aeadkit::internals::octets::Fault;
use std::io;

// An environment without the program's name, which need not be text.
struct WithoutName<'a, R: Env> {
    runtime: &'a R,
}

impl<R: Env> Env for WithoutName<'_, R> {
    fn arg(&self, i: usize, buf: &mut [u8]) -> Result<usize, FillError> {
        match i.checked_add(1) {
            Some(next) => self.runtime.arg(next, buf),
            None => Err(FillError::NotPresent),
        }
    }

    fn var(&self, name: &str, buf: &mut [u8]) -> Result<usize, FillError> {
        self.runtime.var(name, buf)
    }

    fn var_at(&self, i: usize, buf: &mut [u8]) -> Result<usize, FillError> {
        self.runtime.var_at(i, buf)
    }
}

/// Returns the words after the program's name. Faults: `Words` if one of them is not UTF-8, `OutOfMemory` if an allocation
/// fails.
pub fn words_given<R: Env>(alloc: Global, runtime: &R) -> Result<Vec<String>, Failure> {
    match env::args(&(WithoutName { runtime }, alloc)) {
        Ok(words) => Ok(words.collect(alloc)?),
        Err(error) => Err(match error.kind() {
            io::ErrorKind::OutOfMemory => Failure::Fault(Fault::OutOfMemory),
            _ => Failure::Words,
        }),
    }
}
