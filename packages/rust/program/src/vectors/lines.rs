// Made from crates/vectors/src/lines.rt by tools/erase: not to be edited.
//! The lines of a vector file, one after the other.

use memchr::memchr;

// A line without the spaces at its end.
pub(in crate::vectors) fn without_end_spaces(line: &[u8]) -> &[u8] {
    let mut rest = line;
    while let [front @ .., b' '] = rest {
        rest = front;
    }
    rest
}

// A value without the spaces at its beginning.
pub(in crate::vectors) fn without_start_spaces(value: &[u8]) -> &[u8] {
    let mut rest = value;
    while let [b' ', behind @ ..] = rest {
        rest = behind;
    }
    rest
}

// A line without a carriage return at its end, of which only one is dropped.
fn without_carriage_return(line: &[u8]) -> &[u8] {
    match line {
        [front @ .., b'\r'] => front,
        _ => line,
    }
}

// The index of the first occurrence of a byte.
pub(in crate::vectors) fn first_place(byte: u8, bytes: &[u8]) -> Option<usize> {
    memchr(byte, bytes)
}

// The first line, and the bytes after it.
pub(in crate::vectors) fn first_line(bytes: &[u8]) -> Option<(&[u8], &[u8])> {
    if bytes.is_empty() {
        return None;
    }
    match first_place(b'\n', bytes) {
        Some(end) => {
            let line = without_carriage_return(&bytes[..end]);
            Some((without_end_spaces(line), &bytes[end + 1..]))
        }
        None => Some((without_end_spaces(bytes), &bytes[bytes.len()..])),
    }
}
