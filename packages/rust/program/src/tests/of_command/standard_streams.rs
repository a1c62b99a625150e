// Made from crates/aeadkit/src/tests/of_command/standard_streams.rt by tools/erase: not to be edited.
//! Standard output and standard error that fail or halt.
use super::super::devices::{FailsAfter, Halting, NO_FILES, OneFile, Waiting};
use super::super::runs::{CHECK, names, runs_into};
use super::super::shows;
use super::super::vector_files::TWO_RECORDS;
use crate::command::{Failure, Storage, report, run};
use crate::kit::alloc::{Global, Vec};
use crate::kit::{Abort, Alloc, HostRuntime};
use crate::vectors::{Cause, VectorFault};
use std::io;

const KEY: &str = "000102030405060708090a0b0c0d0e0f";

const TEXT: &str = "00112233445566778899aabbccddeeff";

// Words, the failure of standard output, the status, and the fault.
const UNPRINTED: [(&[&str], io::ErrorKind, u8, &str); 5] = [
    (&["wrap", "--key", KEY, "--text", TEXT], io::ErrorKind::StorageFull, 3, "Write"),
    (&["wrap", "--key", KEY, "--text", TEXT], io::ErrorKind::OutOfMemory, 4, "OutOfMemory"),
    (&["--version"], io::ErrorKind::BrokenPipe, 3, "Write"),
    (&["--help"], io::ErrorKind::BrokenPipe, 3, "Write"),
    (&CHECK, io::ErrorKind::StorageFull, 3, "Write"),
];

// Runs the words with a standard output that has to be flushed: at the end all its bytes are flushed. If the flush
// fails, the fault is `Write`.
fn are_flushed<F: Storage>(rt: &(impl Abort + Alloc<A = Global>), files: &F, words: &[&str]) {
    for (flush_fails, status, fault) in [(false, 0, ""), (true, 3, "Write")] {
        let mut out = Waiting { count: 0, flush_fails };
        runs_into(rt, files, words, &mut out, status, fault);
        shows(rt, flush_fails != (out.count == 0), "a flush");
    }
}

// If standard output fails, the fault is `Write`, or `OutOfMemory` if the failure is one of allocation. Standard output
// is flushed.
#[test]
fn failing_output() {
    let rt = HostRuntime;
    let files = OneFile { opens: true, bytes: TWO_RECORDS.as_bytes(), failure: None };
    for (words, kind, status, fault) in &UNPRINTED {
        let mut out = FailsAfter { room: 5, kind: *kind };
        runs_into(&rt, &files, words, &mut out, *status, fault);
        are_flushed(&rt, &files, words);
    }
}

// A standard error that fails does not change the status.
#[test]
fn failing_error() {
    let rt = HostRuntime;
    for (key, status) in [("0", 2), (KEY, 0)] {
        let mut out: Vec<u8> = Vec::new(rt.alloc());
        let mut err = FailsAfter { room: 3, kind: io::ErrorKind::BrokenPipe };
        let words = ["wrap", "--key", key, "--text", TEXT];
        let answer = run(rt.alloc(), &NO_FILES, &words, &mut out, &mut err);
        shows(&rt, answer == status, key);
    }
}

// The line of a failure is printed whole, also the longest one, if standard error takes it in many writes, some of which are
// interrupted.
#[test]
fn halting_error() {
    let rt = HostRuntime;
    let mut err = Halting { bytes: Vec::new(rt.alloc()), is_interrupted: false };
    let fault = VectorFault::AtLine(u64::MAX, Cause::UnknownSuite);
    let status = report(&mut err, Failure::Vector(fault));
    let text = "UnknownSuite at line 18446744073709551615";
    shows(&rt, status == 1 && names(&err.bytes, text), text);
}
