// Made from crates/aeadkit/src/tests/of_command/check.rt by tools/erase: not to be edited.
//! `check` on files that can't be read.
use super::super::devices::{NO_FILES, OneFile};
use super::super::runs::{CHECK, runs_over};
use super::super::vector_files::TWO_RECORDS;
use crate::kit::HostRuntime;
use std::io;

// If a file can't be opened or read, the fault is `Read`, whatever the system's error is. If an allocation fails in
// opening it, the fault is `OutOfMemory`.
#[test]
fn unreadable_files() {
    let rt = HostRuntime;
    runs_over(&rt, &NO_FILES, &CHECK, 3, None, "Read");
    for (opens, bytes, kind, status, fault) in &UNREADABLE {
        let files = OneFile { opens: *opens, bytes: bytes.as_bytes(), failure: Some(*kind) };
        runs_over(&rt, &files, &CHECK, *status, None, fault);
    }
}

// Whether the file can be opened, its bytes, its failure, the status, and the fault.
const UNREADABLE: [(bool, &str, io::ErrorKind, u8, &str); 5] = [
    (true, "", io::ErrorKind::IsADirectory, 3, "Read"),
    (true, TWO_RECORDS, io::ErrorKind::IsADirectory, 3, "Read"),
    (true, "", io::ErrorKind::OutOfMemory, 3, "Read"),
    (true, TWO_RECORDS, io::ErrorKind::OutOfMemory, 3, "Read"),
    (false, "", io::ErrorKind::OutOfMemory, 4, "OutOfMemory"),
];
