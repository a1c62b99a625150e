// Made from crates/aeadkit/src/tests/of_command/system_files.rt by tools/erase: not to be edited.
//! Files of the system, in a folder that the test creates and removes.
use super::super::digits::bytes;
use super::super::published::{CHACHA, CHANGED, GCM, Vector};
use super::super::runs::{runs_over, runs_row};
use super::super::shows;
use super::super::vector_files::TWO_RECORDS;
use crate::command::Disk;
use crate::kit::Abort;
use crate::kit::alloc::Global;
use crate::kit::bumpalo::Bump;
use crate::kit::fs::Files;
use crate::kit::fs::symlink;
use crate::kit::{Alloc, HostRuntime, fs};

const FOLDER: &str = "aeadkit_files";

const TEXT: &str = "aeadkit_files/text";

const VECTORS: &str = "aeadkit_files/vectors.txt";

const FORGED: &str = "aeadkit_files/forged";

const EMPTY: &str = "aeadkit_files/empty";

const SEALED: &str = "aeadkit_files/sealed";

const OPENED: &str = "aeadkit_files/opened";

const NOTHING: &str = "aeadkit_files/nothing";

const UNMADE: &str = "aeadkit_files/unmade";

const LONG: &str = "aeadkit_files/long";

const HARD: &str = "aeadkit_files/hard";

const SYMBOLIC: &str = "aeadkit_files/symbolic";

// Writes a file with these bytes.
fn is_made(rt: &(impl Abort + Files), path: &str, bytes: &[u8]) {
    shows(rt, fs::write(rt, path, bytes).is_ok(), path);
}

// A status, a fault and the words that have them. A file is sealed and opened again. A forged file creates no OUT, and
// leaves an existing OUT as it was. An empty text gives an empty OUT. A path that leads nowhere is `Read` for IN and
// `Write` for OUT. A folder, a path without a file and an empty path are `Read`. An OUT that is IN under another path, by
// a hard link or by a symbolic link is `Words`, whatever the other values are.
const ROWS: &str = "\
0 - seal-file --suite chacha20-poly1305 --key 808182838485868788898a8b8c8d8e8f909192939495969798999a9b9c9d9e9f \
    --nonce 070000004041424344454647 --aad 50515253c0c1c2c3c4c5c6c7 --in aeadkit_files/text --out aeadkit_files/sealed
0 - open-file --suite chacha20-poly1305 --key 808182838485868788898a8b8c8d8e8f909192939495969798999a9b9c9d9e9f \
    --nonce 070000004041424344454647 --aad 50515253c0c1c2c3c4c5c6c7 --in aeadkit_files/sealed --out aeadkit_files/opened
1 TagMismatch open-file --suite chacha20-poly1305 --key 808182838485868788898a8b8c8d8e8f909192939495969798999a9b9c9d9e9f \
    --nonce 070000004041424344454647 --aad 50515253c0c1c2c3c4c5c6c7 --in aeadkit_files/forged --out aeadkit_files/unmade
1 TagMismatch open-file --suite chacha20-poly1305 --key 808182838485868788898a8b8c8d8e8f909192939495969798999a9b9c9d9e9f \
    --nonce 070000004041424344454647 --aad 50515253c0c1c2c3c4c5c6c7 --in aeadkit_files/forged --out aeadkit_files/text
0 - open-file --suite aes-128-gcm --key 00000000000000000000000000000000 --nonce 000000000000000000000000 --in aeadkit_files/empty --out aeadkit_files/nothing
3 Read seal-file --suite aes-128-gcm --key 00000000000000000000000000000000 \
    --nonce 000000000000000000000000 --in aeadkit_files/none/file --out aeadkit_files/text
3 Write seal-file --suite aes-128-gcm --key 00000000000000000000000000000000 \
    --nonce 000000000000000000000000 --in aeadkit_files/text --out aeadkit_files/none/file
2 Words seal-file --suite aes-128-gcm --key 00000000000000000000000000000000 \
    --nonce 000000000000000000000000 --in aeadkit_files/long --out ./aeadkit_files/long
2 Words seal-file --suite aes-128-gcm-siv --key 00000000000000000000000000000000 \
    --nonce 000000000000000000000000 --in aeadkit_files/long --out aeadkit_files/hard
2 Words seal-file --suite aes-128-gcm --key 00000000000000000000000000000000 \
    --nonce 000000000000000000000000 --in aeadkit_files/long --out aeadkit_files/symbolic
2 Words open-file --suite des --key 0 --nonce 0 --in aeadkit_files/symbolic --out aeadkit_files/hard
3 Read check aeadkit_files
3 Read check aeadkit_files/unmade
3 Read check -";

// `check` reads a vector file. If the buffer can't be allocated, the fault is `OutOfMemory`.
fn checks(rt: &(impl Abort + Alloc<A = Global> + Files)) {
    let files = Disk { runtime: rt, alloc: rt.alloc() };
    runs_over(rt, &files, &["check", VECTORS], 0, Some("records 2"), "");
    let memory = Bump::new(rt.alloc());
    memory.set_allocation_limit(Some(0));
    let files = Disk { runtime: rt, alloc: &memory };
    runs_over(rt, &files, &["check", VECTORS], 4, None, "OutOfMemory");
}

// Writes the files that the rows read, and two that the rows overwrite, which are longer than their new contents.
fn makes(rt: &(impl Abort + Alloc<A = Global> + Files)) {
    let text = Vector::of(CHACHA).text;
    let empty = Vector::of(GCM).sealed;
    for (path, digits) in [(TEXT, text), (FORGED, CHANGED), (EMPTY, empty)] {
        is_made(rt, path, &bytes(rt, digits));
    }
    is_made(rt, VECTORS, TWO_RECORDS.as_bytes());
    let long = vec![in rt.alloc(); 0; 100_000].expect("memory");
    for path in [LONG, SEALED, NOTHING] {
        is_made(rt, path, &long);
    }
    shows(rt, fs::hard_link(rt, LONG, HARD).is_ok(), HARD);
    shows(rt, symlink(rt, "long", SYMBOLIC).is_ok(), SYMBOLIC);
}

// Runs the rows.
fn runs_rows(rt: &(impl Abort + Alloc<A = Global> + Files)) {
    let files = Disk { runtime: rt, alloc: rt.alloc() };
    for row in ROWS.lines() {
        runs_row(rt, &files, row);
    }
}

// Compares the contents of a file with the bytes that the digits spell.
fn holds(rt: &(impl Abort + Alloc<A = Global> + Files), path: &str, digits: &str) {
    let held = fs::read(rt, path).expect("a file");
    shows(rt, held.as_slice() == bytes(rt, digits).as_slice(), path);
}

// The file commands, and `check`, on files of the system.
#[test]
fn system_files() {
    let rt = HostRuntime;
    let _ = fs::remove_dir_all(&rt, FOLDER);
    shows(&rt, fs::create_dir(&rt, FOLDER).is_ok(), "a folder");
    makes(&rt);
    runs_rows(&rt);
    checks(&rt);
    let Vector { text, sealed, .. } = Vector::of(CHACHA);
    holds(&rt, SEALED, sealed);
    holds(&rt, OPENED, text);
    holds(&rt, NOTHING, "");
    holds(&rt, TEXT, text);
    let long = fs::read(&rt, LONG).expect("a file");
    shows(&rt, long.len() == 100_000 && long.iter().all(|byte| *byte == 0), LONG);
    shows(&rt, fs::read(&rt, UNMADE).is_err(), "no file");
    shows(&rt, fs::remove_dir_all(&rt, FOLDER).is_ok(), "the end");
}
