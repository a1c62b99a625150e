// Made from crates/aeadkit/src/main.rt by tools/erase: not to be edited.
//! The program `aeadkit`: authenticated encryption and key wrapping by published standards. Its command line is in the
//! crate `command`; the tests of all crates are in this one.
#![allow(unused_imports, reason = "the modules were crates, and hand over more than the program takes")]
#![allow(clippy::manual_is_ascii_check, reason = "a file format says which bytes are digits")]
#![allow(clippy::manual_is_multiple_of, reason = "the proofs speak of a remainder")]
#![allow(clippy::needless_range_loop, reason = "a proof follows the index")]
#![allow(clippy::question_mark, reason = "a proof follows each branch")]

#[macro_use]
mod kit;
mod command;
#[cfg(test)]
mod tests;
mod vectors;

use crate::command::{Disk, report, run, words_given};
use crate::kit::{HostRuntime, fs};
use std::process::ExitCode;

// The path that is opened in place of a standard stream that is closed: a folder, which can be neither read
// nor written as a file. With the null device a sealing would be lost with status 0.
const NO_STREAM: &str = "/";

fn main() -> ExitCode {
    let rt = HostRuntime;
    // A file that a command opens takes the lowest free descriptor, which must not be that of a standard stream.
    let _no_streams = [fs::open(&rt, NO_STREAM), fs::open(&rt, NO_STREAM), fs::open(&rt, NO_STREAM)];
    let mut out = rt.stdout();
    let mut err = rt.stderr();
    ExitCode::from(match words_given(rt.alloc(), &rt) {
        Ok(words) => run(rt.alloc(), &Disk { runtime: &rt, alloc: rt.alloc() }, &words, &mut out, &mut err),
        Err(failure) => report(&mut err, failure),
    })
}
