// Made from crates/aeadkit/src/tests.rt by tools/erase: not to be edited.
//! The tests of all crates. `of_NAME` tests the crate NAME; the other modules are shared by several of these. A row of a test is
//! a line of text that is split when the test runs, since each constant that a function names makes it dearer to prove.
mod devices;
mod digits;
mod memory;
mod of_aead;
mod of_aes;
mod of_chacha;
mod of_command;
mod of_gf128;
mod of_keywrap;
mod of_octets;
mod of_poly1305;
mod of_vectors;
mod published;
mod runs;
mod vector_files;

use crate::kit::Abort;

// Fails the test unless `is_so`. A call of this function is cheaper to prove than an assertion in its place.
fn shows(_rt: &impl Abort, is_so: bool, what: &str) {
    assert!(is_so, "{what}");
}

// Fails the test unless `is_so`. The message ends with a number.
fn shows_at(_rt: &impl Abort, is_so: bool, what: &str, number: u64) {
    assert!(is_so, "{what} {number}");
}
