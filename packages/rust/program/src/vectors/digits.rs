// Made from crates/vectors/src/digits.rt by tools/erase: not to be edited.
//! Hexadecimal digits and the bytes that they spell.

use crate::kit::alloc::{AllocError, Allocator, Vec};
use crate::vectors::field::is_hex;

// The value of a hexadecimal digit of either case, computed from its bits.
fn digit_value(digit: u8) -> u8 {
    (digit & 15) + 9 * (digit >> 6)
}

// An even number of hexadecimal digits of either case.
#[derive(Clone, Copy)]
pub(in crate::vectors) struct Digits<'a> {
    text: &'a [u8],
}

impl<'a> Digits<'a> {
    // Returns the value as digits, or `None` if it is not an even number of hexadecimal digits.
    pub(in crate::vectors) fn of(value: &'a [u8]) -> Option<Digits<'a>> {
        if is_hex(value) { Some(Digits { text: value }) } else { None }
    }

    // Returns an empty list of digits.
    pub(in crate::vectors) fn none() -> Digits<'a> {
        Digits { text: &[] }
    }

    // Returns the number of bytes.
    pub(in crate::vectors) fn byte_count(self) -> usize {
        self.text.len() / 2
    }

    // Splits the digits after the first `count` bytes.
    pub(in crate::vectors) fn split_at(self, count: usize) -> (Digits<'a>, Digits<'a>) {
        let (front, back) = self.text.split_at(2 * count);
        (Digits { text: front }, Digits { text: back })
    }

    // Returns the byte at an index.
    fn byte(self, i: usize) -> u8 {
        digit_value(self.text[2 * i]) * 16 + digit_value(self.text[2 * i + 1])
    }

    // Returns true if the digits spell these bytes.
    pub(in crate::vectors) fn spell(self, bytes: &[u8]) -> bool {
        if bytes.len() != self.byte_count() {
            return false;
        }
        // Without an early exit, many bytes are compared at once.
        let mut same = true;
        for i in 0..bytes.len() {
            same &= self.byte(i) == bytes[i];
        }
        same
    }

    // Writes the bytes into a slice of the same length.
    pub(in crate::vectors) fn write(self, room: &mut [u8]) {
        for i in 0..room.len() {
            room[i] = self.byte(i);
        }
    }

    // Returns the bytes in a new vector.
    pub(in crate::vectors) fn bytes<A: Allocator>(self, alloc: A) -> Result<Vec<u8, A>, AllocError> {
        let mut bytes = vec![in alloc; 0u8; self.byte_count()]?;
        self.write(&mut bytes);
        Ok(bytes)
    }
}
