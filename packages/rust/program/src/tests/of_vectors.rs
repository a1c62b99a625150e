// Made from crates/aeadkit/src/tests/of_vectors.rt by tools/erase: not to be edited.
//! The command `check` on vector files of both formats.
mod cut;
mod edited;

use super::devices::OneFile;
use super::published::{CHACHA_A5, GCM_SIV_WRAPS, PADDED, WITH_AAD};
use super::runs::{CHECK, runs_over};
use super::vector_files::{add, file_of, published, with_lines};
use crate::kit::alloc::{Global, Vec};
use crate::kit::{Abort, Alloc, HostRuntime};
use std::str::from_utf8;

// Runs `check` on a file, which prints this report, or refuses the file with this fault.
fn check_gives(rt: &(impl Abort + Alloc<A = Global>), file: &[u8], due: &str) {
    let files = OneFile { opens: true, bytes: file, failure: None };
    if due.starts_with("records") {
        let status = u8::from(due.contains('\n'));
        runs_over(rt, &files, &CHECK, status, Some(due), "");
    } else {
        runs_over(rt, &files, &CHECK, 1, None, due);
    }
}

// A hex digit with its lowest bit flipped.
fn changed(digit: u8) -> u8 {
    match digit {
        b'a' => b'b',
        b'b' => b'a',
        b'c' => b'd',
        b'd' => b'c',
        b'e' => b'f',
        b'f' => b'e',
        _ => digit ^ 1,
    }
}

// The file with the lowest bit of each record's sealed bytes flipped, and `invalid` in place of each text.
fn changed_records(rt: &(impl Abort + Alloc<A = Global>), file: &str) -> Vec<u8> {
    let mut out = Vec::new(rt.alloc());
    for line in file.lines() {
        match line.as_bytes().split_last() {
            _ if line.starts_with("text") => add(rt, &mut out, &[b"invalid"]),
            Some((last, front)) if line.starts_with("sealed") => {
                add(rt, &mut out, &[front, &[changed(*last)]]);
            }
            _ => add(rt, &mut out, &[line.as_bytes()]),
        }
    }
    out
}

// The published vectors agree. With a bit flipped, none of them is a valid sealing or wrapping. The fifth disagrees if
// it says `invalid`.
#[test]
fn published_vectors_in_both_formats() {
    let rt = HostRuntime;
    for format in ["1", "2"] {
        let file = published(&rt, format);
        check_gives(&rt, &file, "records 18");
        let text = from_utf8(&file).expect("text");
        check_gives(&rt, &changed_records(&rt, text), "records 18");
        let fifth = with_lines(&rt, text, "31|invalid\n");
        check_gives(&rt, &fifth, "records 18\nbad 5");
    }
}

// The file agrees, and also if each of its records is changed and says `invalid`.
fn agrees_and_is_needed(rt: &(impl Abort + Alloc<A = Global>), file: &[u8], due: &str) {
    check_gives(rt, file, due);
    let text = from_utf8(file).expect("text");
    check_gives(rt, &changed_records(rt, text), due);
}

// Other published vectors, in format 2: a long text, a block counter that wraps at 2^32, and texts wrapped with
// padding; and sealings with associated data.
#[test]
fn more_published_vectors() {
    let rt = HostRuntime;
    let file = file_of(&rt, "2", &[CHACHA_A5, GCM_SIV_WRAPS], &PADDED);
    agrees_and_is_needed(&rt, &file, "records 4");
    agrees_and_is_needed(&rt, &file_of(&rt, "2", &WITH_AAD, &[]), "records 13");
}
