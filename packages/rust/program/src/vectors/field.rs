// Made from crates/vectors/src/field.rt by tools/erase: not to be edited.
//! The parts of a line of a vector file: a name and a value.

use crate::vectors::lines::{first_place, without_end_spaces, without_start_spaces};

// Whether a line is blank or a comment.
pub(in crate::vectors) fn is_gap(line: &[u8]) -> bool {
    matches!(line, [] | [b'#', ..])
}

// The parts of a line before and after its first `=`.
fn field_of(line: &[u8]) -> Option<(&[u8], &[u8])> {
    let at = first_place(b'=', line)?;
    let name = without_end_spaces(&line[..at]);
    let value = without_start_spaces(&line[at + 1..]);
    Some((name, value))
}

// The name and the value of a value line.
pub(in crate::vectors) fn value_line(line: &[u8]) -> Option<(&[u8], &[u8])> {
    if is_gap(line) {
        return None;
    }
    field_of(line)
}

// Whether a byte is a hexadecimal digit.
fn is_digit(byte: u8) -> bool {
    byte.is_ascii_hexdigit()
}

// Whether all bytes are hexadecimal digits. Without an early exit, many bytes are looked at together.
fn are_digits(text: &[u8]) -> bool {
    let mut all = true;
    for byte in text {
        all &= is_digit(*byte);
    }
    all
}

// Whether a value is an even number of hexadecimal digits.
pub(in crate::vectors) fn is_hex(text: &[u8]) -> bool {
    text.len() % 2 == 0 && are_digits(text)
}
