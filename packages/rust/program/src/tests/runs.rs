// Made from crates/aeadkit/src/tests/runs.rt by tools/erase: not to be edited.
//! Runs of the program on the words of a command line, which compare the status, the fault and what is printed.
use super::devices::NO_FILES;
use super::published::word;
use crate::command::{Storage, run};
use crate::kit::alloc::{Global, Vec};
use crate::kit::{Abort, Alloc};
use std::io::Write;

/// The words that check a vector file.
pub const CHECK: [&str; 2] = ["check", "vectors.txt"];

/// Whether the bytes are this line and an LF.
pub fn is_line(bytes: &[u8], line: &str) -> bool {
    bytes.strip_suffix(b"\n".as_slice()) == Some(line.as_bytes())
}

/// Whether standard error has the line of this fault, or nothing if the fault is empty.
pub fn names(err: &[u8], fault: &str) -> bool {
    match err.strip_prefix(b"aeadkit: ".as_slice()) {
        Some(line) => is_line(line, fault),
        None => err.is_empty() && fault.is_empty(),
    }
}

/// Runs the words over these files, with `out` as standard output, and compares the status and the fault.
pub fn runs_into<F: Storage, W: Write>(
    rt: &(impl Abort + Alloc<A = Global>),
    files: &F,
    words: &[&str],
    out: &mut W,
    status: u8,
    fault: &str,
) {
    let mut err: Vec<u8> = Vec::new(rt.alloc());
    let answer = run(rt.alloc(), files, words, out, &mut err);
    assert!(answer == status && names(&err, fault), "{answer} of {words:?}");
}

/// Runs the words over these files, and compares the status, the fault and standard output, which is these lines or
/// nothing.
pub fn runs_over<F: Storage>(
    rt: &(impl Abort + Alloc<A = Global>),
    files: &F,
    words: &[&str],
    status: u8,
    printed: Option<&str>,
    fault: &str,
) {
    let mut out: Vec<u8> = Vec::new(rt.alloc());
    runs_into(rt, files, words, &mut out, status, fault);
    let is_printed = match printed {
        Some(lines) => is_line(&out, lines),
        None => out.is_empty(),
    };
    assert!(is_printed, "{words:?}");
}

/// The words of a line without the first `first` words; `-` is the empty word.
pub fn words_after<'a>(rt: &(impl Abort + Alloc<A = Global>), line: &'a str, first: usize) -> Vec<&'a str> {
    let mut words = Vec::new(rt.alloc());
    for given in line.split(' ').skip(first) {
        words.push(word(Some(given))).expect("memory");
    }
    words
}

/// Runs a row over these files: a status, a fault, and the words that have them. Standard output is empty.
pub fn runs_row<F: Storage>(rt: &(impl Abort + Alloc<A = Global>), files: &F, row: &str) {
    let mut words = row.split(' ');
    let status = word(words.next()).parse().unwrap_or(9);
    let fault = word(words.next());
    runs_over(rt, files, &words_after(rt, row, 2), status, None, fault);
}

/// Runs the words, which print this line with status 0, and nothing to standard error.
pub fn prints(rt: &(impl Abort + Alloc<A = Global>), words: &[&str], line: &str) {
    runs_over(rt, &NO_FILES, words, 0, Some(line), "");
}
