// Made from crates/aes/src/lanes.rt by tools/erase: not to be edited.
//! Blocks in vectors (FIPS 197, 5.1): one in a vector of 16 bytes, two in 32, four in 64, with look-ups in tables of sixteen
//! bytes. The tables are vectors: none is read from memory, so no address depends on a key or a block. The field of 256 elements
//! is seen as an extension of its subfield of 16, so that an inverse takes five look-ups. 0x80 stands for the inverse of 0.
//!
//! Between two rounds the bytes are in the basis of that extension, and ShiftRows of the next round has been applied to them.

use crate::simd::{Places, u8x16, u8x32, u8x64};

// The bytes below 16, in the basis.
const TO_LOW: [u8; 16] =
    [0x00, 0x01, 0x5f, 0x5e, 0x13, 0x12, 0x4c, 0x4d, 0x11, 0x10, 0x4e, 0x4f, 0x02, 0x03, 0x5d, 0x5c];

// The multiples of 16, in the basis.
const TO_HIGH: [u8; 16] =
    [0x00, 0xc9, 0xef, 0x26, 0xcd, 0x04, 0x22, 0xeb, 0x2e, 0xe7, 0xc1, 0x08, 0xe3, 0x2a, 0x0c, 0xc5];

// The bytes whose coordinates in the basis are below 16.
const FROM_LOW: [u8; 16] =
    [0x00, 0x01, 0x0c, 0x0d, 0x50, 0x51, 0x5c, 0x5d, 0xb0, 0xb1, 0xbc, 0xbd, 0xe0, 0xe1, 0xec, 0xed];

// The bytes whose coordinates in the basis are multiples of 16.
const FROM_HIGH: [u8; 16] =
    [0x00, 0x09, 0x6c, 0x65, 0xe6, 0xef, 0x8a, 0x83, 0x47, 0x4e, 0x2b, 0x22, 0xa1, 0xa8, 0xcd, 0xc4];

// The inverses in the subfield.
const INVERSE: [u8; 16] =
    [0x80, 0x01, 0x08, 0x0d, 0x0f, 0x06, 0x05, 0x0e, 0x02, 0x0c, 0x0b, 0x0a, 0x09, 0x03, 0x07, 0x04];

// The inverses in the subfield times a constant.
const SCALED: [u8; 16] =
    [0x80, 0x0c, 0x0d, 0x0b, 0x05, 0x04, 0x06, 0x09, 0x0e, 0x07, 0x0f, 0x03, 0x01, 0x02, 0x08, 0x0a];

// The part of the S-box, without its constant, that the first nibble of an inverse gives.
const PLAIN_BY_FIRST: [u8; 16] =
    [0x00, 0xb1, 0x40, 0x80, 0x79, 0x88, 0xc0, 0xc8, 0xf9, 0x31, 0x08, 0xb9, 0xf1, 0x48, 0x39, 0x71];

// The part of the S-box, without its constant, that the second nibble of an inverse gives.
const PLAIN_BY_SECOND: [u8; 16] =
    [0x00, 0xd3, 0x73, 0xae, 0x94, 0x34, 0xdd, 0x47, 0x3a, 0x7d, 0x9a, 0x49, 0xa0, 0xe9, 0xe7, 0x0e];

// The part that the first nibble gives, in the basis.
const ONCE_BY_FIRST: [u8; 16] =
    [0x00, 0x09, 0xcd, 0x2e, 0xfb, 0x3f, 0xe3, 0xf2, 0xd5, 0x27, 0x11, 0x18, 0xc4, 0xdc, 0x36, 0xea];

// The part that the second nibble gives, in the basis.
const ONCE_BY_SECOND: [u8; 16] =
    [0x00, 0x74, 0xb5, 0x9c, 0xf4, 0x35, 0x29, 0x80, 0x68, 0xe8, 0xa9, 0xdd, 0xc1, 0x1c, 0x41, 0x5d];

// Twice the part that the first nibble gives, in the basis.
const TWICE_BY_FIRST: [u8; 16] =
    [0x00, 0xfb, 0x2e, 0x86, 0x9a, 0x4f, 0xa8, 0x61, 0x1c, 0x7d, 0xc9, 0x32, 0xd5, 0xe7, 0xb4, 0x53];

// Twice the part that the second nibble gives, in the basis.
const TWICE_BY_SECOND: [u8; 16] =
    [0x00, 0x0b, 0x40, 0x80, 0x78, 0x33, 0xc0, 0x73, 0xf8, 0x8b, 0xb3, 0xb8, 0x4b, 0xf3, 0x38, 0xcb];

// The index from which ShiftRows moves each byte.
const ROW_SOURCES: [usize; 64] = [
    0, 5, 10, 15, 4, 9, 14, 3, 8, 13, 2, 7, 12, 1, 6, 11, 16, 21, 26, 31, 20, 25, 30, 19, 24, 29, 18, 23, 28, 17, 22,
    27, 32, 37, 42, 47, 36, 41, 46, 35, 40, 45, 34, 39, 44, 33, 38, 43, 48, 53, 58, 63, 52, 57, 62, 51, 56, 61, 50, 55,
    60, 49, 54, 59,
];

// The index one row down in the same column; row 0 is below row 3.
const ROWS_BELOW: [usize; 64] = [
    1, 2, 3, 0, 5, 6, 7, 4, 9, 10, 11, 8, 13, 14, 15, 12, 17, 18, 19, 16, 21, 22, 23, 20, 25, 26, 27, 24, 29, 30, 31,
    28, 33, 34, 35, 32, 37, 38, 39, 36, 41, 42, 43, 40, 45, 46, 47, 44, 49, 50, 51, 48, 53, 54, 55, 52, 57, 58, 59, 56,
    61, 62, 63, 60,
];

// The index one row below that from which ShiftRows moves each byte.
const SHIFTED_BELOW: [usize; 64] = [
    1, 6, 11, 12, 5, 10, 15, 0, 9, 14, 3, 4, 13, 2, 7, 8, 17, 22, 27, 28, 21, 26, 31, 16, 25, 30, 19, 20, 29, 18, 23,
    24, 33, 38, 43, 44, 37, 42, 47, 32, 41, 46, 35, 36, 45, 34, 39, 40, 49, 54, 59, 60, 53, 58, 63, 48, 57, 62, 51, 52,
    61, 50, 55, 56,
];

// The index one row above that from which ShiftRows moves each byte.
const SHIFTED_ABOVE: [usize; 64] = [
    3, 4, 9, 14, 7, 8, 13, 2, 11, 12, 1, 6, 15, 0, 5, 10, 19, 20, 25, 30, 23, 24, 29, 18, 27, 28, 17, 22, 31, 16, 21,
    26, 35, 36, 41, 46, 39, 40, 45, 34, 43, 44, 33, 38, 47, 32, 37, 42, 51, 52, 57, 62, 55, 56, 61, 50, 59, 60, 49, 54,
    63, 48, 53, 58,
];

// The first 16 entries of ROW_SOURCES, ROWS_BELOW, SHIFTED_BELOW and SHIFTED_ABOVE, for a vector of one block.
const ONE_ROW_SOURCES: [usize; 16] = [0, 5, 10, 15, 4, 9, 14, 3, 8, 13, 2, 7, 12, 1, 6, 11];

const ONE_ROWS_BELOW: [usize; 16] = [1, 2, 3, 0, 5, 6, 7, 4, 9, 10, 11, 8, 13, 14, 15, 12];

const ONE_SHIFTED_BELOW: [usize; 16] = [1, 6, 11, 12, 5, 10, 15, 0, 9, 14, 3, 4, 13, 2, 7, 8];

const ONE_SHIFTED_ABOVE: [usize; 16] = [3, 4, 9, 14, 7, 8, 13, 2, 11, 12, 1, 6, 15, 0, 5, 10];

// Their first 32 entries, for a vector of two blocks.
const TWO_ROW_SOURCES: [usize; 32] = [
    0, 5, 10, 15, 4, 9, 14, 3, 8, 13, 2, 7, 12, 1, 6, 11, 16, 21, 26, 31, 20, 25, 30, 19, 24, 29, 18, 23, 28, 17, 22,
    27,
];

const TWO_ROWS_BELOW: [usize; 32] = [
    1, 2, 3, 0, 5, 6, 7, 4, 9, 10, 11, 8, 13, 14, 15, 12, 17, 18, 19, 16, 21, 22, 23, 20, 25, 26, 27, 24, 29, 30, 31,
    28,
];

const TWO_SHIFTED_BELOW: [usize; 32] = [
    1, 6, 11, 12, 5, 10, 15, 0, 9, 14, 3, 4, 13, 2, 7, 8, 17, 22, 27, 28, 21, 26, 31, 16, 25, 30, 19, 20, 29, 18, 23,
    24,
];

const TWO_SHIFTED_ABOVE: [usize; 32] = [
    3, 4, 9, 14, 7, 8, 13, 2, 11, 12, 1, 6, 15, 0, 5, 10, 19, 20, 25, 30, 23, 24, 29, 18, 27, 28, 17, 22, 31, 16, 21,
    26,
];

// A vector of one, two or four blocks.
pub(in crate::proved::aes) trait Lanes: Copy {
    // Copies of sixteen bytes, one for each block.
    fn copies(bytes: [u8; 16]) -> Self;

    // Looks each lane up in the table.
    fn look_up(table: [u8; 16], at: Self) -> Self;

    // The low nibble of each lane.
    fn low_nibbles(self) -> Self;

    // The high nibble of each lane.
    fn high_nibbles(self) -> Self;

    // Adds the lanes.
    fn sum(self, other: Self) -> Self;

    // ShiftRows in each block.
    fn shift_rows(self) -> Self;

    // Moves each column up by one row; row 0 becomes row 3.
    fn rows_up(self) -> Self;

    // Moves each column up by one row, and then shifts the rows.
    fn shifted_up(self) -> Self;

    // Moves each column down by one row, and then shifts the rows.
    fn shifted_down(self) -> Self;
}

impl Lanes for u8x16 {
    #[inline(always)]
    fn copies(bytes: [u8; 16]) -> u8x16 {
        u8x16::from_array(bytes)
    }

    #[inline(always)]
    fn look_up(table: [u8; 16], at: u8x16) -> u8x16 {
        u8x16::copies(table).swizzle_dyn_within::<16>(at)
    }

    #[inline(always)]
    fn low_nibbles(self) -> u8x16 {
        self & u8x16::splat(15)
    }

    #[inline(always)]
    fn high_nibbles(self) -> u8x16 {
        self >> u8x16::splat(4)
    }

    #[inline(always)]
    fn sum(self, other: u8x16) -> u8x16 {
        self ^ other
    }

    #[inline(always)]
    fn shift_rows(self) -> u8x16 {
        self.swizzle(const { Places::new(ONE_ROW_SOURCES) })
    }

    #[inline(always)]
    fn rows_up(self) -> u8x16 {
        self.swizzle(const { Places::new(ONE_ROWS_BELOW) })
    }

    #[inline(always)]
    fn shifted_up(self) -> u8x16 {
        self.swizzle(const { Places::new(ONE_SHIFTED_BELOW) })
    }

    #[inline(always)]
    fn shifted_down(self) -> u8x16 {
        self.swizzle(const { Places::new(ONE_SHIFTED_ABOVE) })
    }
}

impl Lanes for u8x32 {
    #[inline(always)]
    fn copies(bytes: [u8; 16]) -> u8x32 {
        u8x16::from_array(bytes).swizzle(
            const {
                Places::new([
                    0, 1, 2, 3, 4, 5, 6, 7, 8, 9, 10, 11, 12, 13, 14, 15, 0, 1, 2, 3, 4, 5, 6, 7, 8, 9, 10, 11, 12, 13,
                    14, 15,
                ])
            },
        )
    }

    #[inline(always)]
    fn look_up(table: [u8; 16], at: u8x32) -> u8x32 {
        u8x32::copies(table).swizzle_dyn_within::<16>(at)
    }

    #[inline(always)]
    fn low_nibbles(self) -> u8x32 {
        self & u8x32::splat(15)
    }

    #[inline(always)]
    fn high_nibbles(self) -> u8x32 {
        self >> u8x32::splat(4)
    }

    #[inline(always)]
    fn sum(self, other: u8x32) -> u8x32 {
        self ^ other
    }

    #[inline(always)]
    fn shift_rows(self) -> u8x32 {
        self.swizzle(const { Places::new(TWO_ROW_SOURCES) })
    }

    #[inline(always)]
    fn rows_up(self) -> u8x32 {
        self.swizzle(const { Places::new(TWO_ROWS_BELOW) })
    }

    #[inline(always)]
    fn shifted_up(self) -> u8x32 {
        self.swizzle(const { Places::new(TWO_SHIFTED_BELOW) })
    }

    #[inline(always)]
    fn shifted_down(self) -> u8x32 {
        self.swizzle(const { Places::new(TWO_SHIFTED_ABOVE) })
    }
}

impl Lanes for u8x64 {
    #[inline(always)]
    fn copies(bytes: [u8; 16]) -> u8x64 {
        u8x16::from_array(bytes).swizzle(
            const {
                Places::new([
                    0, 1, 2, 3, 4, 5, 6, 7, 8, 9, 10, 11, 12, 13, 14, 15, 0, 1, 2, 3, 4, 5, 6, 7, 8, 9, 10, 11, 12, 13,
                    14, 15, 0, 1, 2, 3, 4, 5, 6, 7, 8, 9, 10, 11, 12, 13, 14, 15, 0, 1, 2, 3, 4, 5, 6, 7, 8, 9, 10, 11,
                    12, 13, 14, 15,
                ])
            },
        )
    }

    #[inline(always)]
    fn look_up(table: [u8; 16], at: u8x64) -> u8x64 {
        u8x64::copies(table).swizzle_dyn_within::<16>(at)
    }

    #[inline(always)]
    fn low_nibbles(self) -> u8x64 {
        self & u8x64::splat(15)
    }

    #[inline(always)]
    fn high_nibbles(self) -> u8x64 {
        self >> u8x64::splat(4)
    }

    #[inline(always)]
    fn sum(self, other: u8x64) -> u8x64 {
        self ^ other
    }

    #[inline(always)]
    fn shift_rows(self) -> u8x64 {
        self.swizzle(const { Places::new(ROW_SOURCES) })
    }

    #[inline(always)]
    fn rows_up(self) -> u8x64 {
        self.swizzle(const { Places::new(ROWS_BELOW) })
    }

    #[inline(always)]
    fn shifted_up(self) -> u8x64 {
        self.swizzle(const { Places::new(SHIFTED_BELOW) })
    }

    #[inline(always)]
    fn shifted_down(self) -> u8x64 {
        self.swizzle(const { Places::new(SHIFTED_ABOVE) })
    }
}

// The two nibbles of each lane.
#[inline(always)]
pub(in crate::proved::aes) fn nibbles<V: Lanes>(x: V) -> (V, V) {
    (x.low_nibbles(), x.high_nibbles())
}

// The sum of the entries of two tables.
#[inline(always)]
pub(in crate::proved::aes) fn look_up_both<V: Lanes>(first: [u8; 16], second: [u8; 16], u: V, t: V) -> V {
    V::look_up(first, u).sum(V::look_up(second, t))
}

// The two nibbles of the inverse of each lane, which is in the basis.
#[inline(always)]
pub(in crate::proved::aes) fn inverse<V: Lanes>(x: V) -> (V, V) {
    let (low, high) = nibbles(x);
    let both = low.sum(high);
    let scaled = V::look_up(SCALED, low);
    let first = V::look_up(INVERSE, high).sum(scaled);
    let second = V::look_up(INVERSE, both).sum(scaled);
    let u = V::look_up(INVERSE, first).sum(both);
    let t = V::look_up(INVERSE, second).sum(high);
    (u, t)
}

// Changes each lane into the basis.
#[inline(always)]
pub(in crate::proved::aes) fn to_basis<V: Lanes>(x: V) -> V {
    let (low, high) = nibbles(x);
    look_up_both(TO_LOW, TO_HIGH, low, high)
}

// Changes each lane back from the basis.
#[inline(always)]
pub(in crate::proved::aes) fn from_basis<V: Lanes>(x: V) -> V {
    let (low, high) = nibbles(x);
    look_up_both(FROM_LOW, FROM_HIGH, low, high)
}

// Applies the S-box without its constant to bytes in the basis. Returns the values, the values in the basis, and their doubles
// in the basis. LLVM leaves out those that a caller does not use.
#[inline(always)]
pub(in crate::proved::aes) fn substitute<V: Lanes>(x: V) -> (V, V, V) {
    let (u, t) = inverse(x);
    (
        look_up_both(PLAIN_BY_FIRST, PLAIN_BY_SECOND, u, t),
        look_up_both(ONCE_BY_FIRST, ONCE_BY_SECOND, u, t),
        look_up_both(TWICE_BY_FIRST, TWICE_BY_SECOND, u, t),
    )
}

// AddRoundKey before the first round, the change of basis, and ShiftRows of the first round.
#[inline(always)]
pub(in crate::proved::aes) fn first<V: Lanes>(x: V, key: [u8; 16]) -> V {
    to_basis(x.sum(V::copies(key)).shift_rows())
}

// Any round but the last (FIPS 197, 5.1), with a round key in the basis whose rows are shifted. ShiftRows of this round was
// applied before, and that of the next round is part of the places from which the sums are moved.
#[inline(always)]
pub(in crate::proved::aes) fn round<V: Lanes>(x: V, key: [u8; 16]) -> V {
    let (_, once, twice) = substitute(x);
    let upper = twice.sum(once.rows_up());
    let lower = once.shifted_down().sum(V::copies(key));
    upper.shift_rows().sum(lower).sum(upper.shifted_up())
}

// The last round, whose result is no longer in the basis.
#[inline(always)]
pub(in crate::proved::aes) fn last<V: Lanes>(x: V, key: [u8; 16]) -> V {
    let (plain, _, _) = substitute(x);
    plain.sum(V::copies(key))
}
