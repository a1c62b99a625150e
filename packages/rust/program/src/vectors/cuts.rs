// Made from crates/vectors/src/cuts.rt by tools/erase: not to be edited.
//! The value of a `cuts` line, which says where a text is cut into pieces.

use crate::vectors::lines::first_place;

// The text before the first comma, and the text after it.
fn first_part(text: &[u8]) -> (&[u8], Option<&[u8]>) {
    match first_place(b',', text) {
        Some(at) => (&text[..at], Some(&text[at + 1..])),
        None => (text, None),
    }
}

// Whether a byte is a decimal digit.
fn is_digit(byte: u8) -> bool {
    matches!(byte, b'0'..=b'9')
}

// Whether a text begins with a byte other than a zero.
fn has_no_leading_zero(text: &[u8]) -> bool {
    !matches!(text, [] | [b'0', ..])
}

// The number that a text spells: decimal digits without a leading zero, that fit in 64 bits. `None` for any other text.
fn number_of(text: &[u8]) -> Option<u64> {
    if !has_no_leading_zero(text) {
        return None;
    }
    let mut number = 0u64;
    for digit in text {
        if !is_digit(*digit) {
            return None;
        }
        let Some(tens) = number.checked_mul(10) else {
            return None;
        };
        let Some(sum) = tens.checked_add(u64::from(*digit - b'0')) else {
            return None;
        };
        number = sum;
    }
    Some(number)
}

// Whether a value is rising numbers from 1 to `most`, joined by single commas.
pub(in crate::vectors) fn are_cuts(most: u64, value: &[u8]) -> bool {
    let mut last = 0u64;
    let mut rest = value;
    loop {
        let (part, behind) = first_part(rest);
        let Some(number) = number_of(part) else {
            return false;
        };
        if number <= last || most < number {
            return false;
        }
        last = number;
        let Some(others) = behind else {
            return true;
        };
        rest = others;
    }
}
