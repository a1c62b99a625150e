// Made from crates/aeadkit/src/tests/vector_files.rt by tools/erase: not to be edited.
//! Vector files, and copies of them with some lines replaced.
use super::published::{VECTORS, WRAPPINGS, word};
use crate::kit::alloc::{Global, Vec};
use crate::kit::{Abort, Alloc};

/// Two records: a published vector of GCM, and the same vector with another last byte, which is invalid.
pub const TWO_RECORDS: &str = "# two records
format = 1
suite = aes-128-gcm
key = 00000000000000000000000000000000
nonce = 000000000000000000000000
aad =
sealed = 58e2fccefa7e3061367f1d57a4e7455a
text =

suite = aes-128-gcm
key = 00000000000000000000000000000000
nonce = 000000000000000000000000
aad =
sealed = 58e2fccefa7e3061367f1d57a4e7455b
invalid
";

/// A record with cuts, and one of key wrapping with padding.
pub const FORMAT_2: &str = "format = 2
suite = aes-128-gcm-siv
key = 01000000000000000000000000000000
nonce = 030000000000000000000000
aad =
sealed = b5d839330ac7b786578782fff6013b815b287c22493a364c
cuts = 3,8
text = 0100000000000000
suite = aes-192-wrap-pad
key = 5840df6e29b02af1ab493b705bf16ea1ae8338f4dcc176a8
sealed = afbeb0f07dfbf5419200f2ccb50bb24f
text = 466f7250617369
";

/// Adds a line that is made of these parts, and an LF.
pub fn add(_rt: &(impl Abort + Alloc<A = Global>), file: &mut Vec<u8>, parts: &[&[u8]]) {
    for part in parts {
        file.extend_from_slice(part).expect("memory");
    }
    file.push(b'\n').expect("memory");
}

// Adds a line `name = value` for each word of a published vector.
fn add_record(rt: &(impl Abort + Alloc<A = Global>), file: &mut Vec<u8>, vector: &str, names: &[&str]) {
    for (name, given) in names.iter().zip(vector.split(' ')) {
        add(rt, file, &[name.as_bytes(), b" = ", word(Some(given)).as_bytes()]);
    }
}

/// A vector file of these sealings and wrappings.
pub fn file_of(rt: &(impl Abort + Alloc<A = Global>), format: &str, sealings: &[&str], wrappings: &[&str]) -> Vec<u8> {
    let mut file = Vec::new(rt.alloc());
    add(rt, &mut file, &[b"format = ", format.as_bytes()]);
    for vector in sealings {
        add_record(rt, &mut file, vector, &["suite", "key", "nonce", "aad", "sealed", "text"]);
    }
    for vector in wrappings {
        add_record(rt, &mut file, vector, &["suite", "key", "sealed", "text"]);
    }
    file
}

/// The published sealings and wrappings without padding, as a file of 18 records.
pub fn published(rt: &(impl Abort + Alloc<A = Global>), format: &str) -> Vec<u8> {
    file_of(rt, format, &VECTORS, &WRAPPINGS)
}

// The number that the digits spell, or 0 if there are no digits.
fn number_of(digits: Option<&str>) -> usize {
    match digits {
        Some(digits) => digits.parse().unwrap_or(0),
        None => 0,
    }
}

/// The file with some lines replaced. For each of these the edits give its number, and what replaces the line and its
/// LF; bars separate all parts.
pub fn with_lines(rt: &(impl Abort + Alloc<A = Global>), file: &str, edits: &str) -> Vec<u8> {
    let mut out = Vec::new(rt.alloc());
    let mut parts = edits.split('|');
    let mut next = number_of(parts.next());
    for (i, old) in file.lines().enumerate() {
        if i.saturating_add(1) == next {
            let new = parts.next().unwrap_or("");
            out.extend_from_slice(new.as_bytes()).expect("memory");
            next = number_of(parts.next());
        } else {
            add(rt, &mut out, &[old.as_bytes()]);
        }
    }
    out
}
