// Made from crates/aes/src/inverse_lanes.rt by tools/erase: not to be edited.
//! One block in a vector of 16 bytes, for the inverse cipher (FIPS 197, 5.3.5), with look-ups in tables of sixteen bytes. The
//! tables are vectors: none is read from memory by a byte of the state or of a key.
//!
//! A state is kept as the inverse S-box takes it: after InvShiftRows, each byte with the affine map of the S-box undone, and in a
//! basis of `lanes`. The round keys that are added to it have the same form.

use crate::proved::aes::lanes::{Lanes, inverse, look_up_both, nibbles};
use crate::simd::{Places, u8x16, u32x4};

// The bytes below 16 with the matrix of the affine map undone, in the basis.
const UNDONE_LOW: [u8; 16] =
    [0x00, 0x83, 0xf4, 0x77, 0xff, 0x7c, 0x0b, 0x88, 0x5b, 0xd8, 0xaf, 0x2c, 0xa4, 0x27, 0x50, 0xd3];

// The multiples of 16 with the matrix of the affine map undone, in the basis.
const UNDONE_HIGH: [u8; 16] =
    [0x00, 0xd2, 0xdd, 0x0f, 0xb8, 0x6a, 0x65, 0xb7, 0xfd, 0x2f, 0x20, 0xf2, 0x45, 0x97, 0x98, 0x4a];

// The part of the inverse S-box that the first nibble of an inverse gives.
const PLAIN_BY_FIRST: [u8; 16] =
    [0x00, 0x82, 0x92, 0x25, 0x67, 0x77, 0xb7, 0xe5, 0x42, 0xa7, 0x52, 0xd0, 0x10, 0xc0, 0xf5, 0x35];

// The part that the second nibble gives.
const PLAIN_BY_SECOND: [u8; 16] =
    [0x00, 0xcd, 0xa1, 0x83, 0xa8, 0xc4, 0x22, 0x65, 0x2b, 0x4e, 0x47, 0x8a, 0x6c, 0xe6, 0x09, 0xef];

// The part of 14 times the inverse S-box that the first nibble gives, with the matrix undone, in the basis.
const FOURTEEN_BY_FIRST: [u8; 16] =
    [0x00, 0x4d, 0xd5, 0xbf, 0xce, 0x56, 0x6a, 0x83, 0x71, 0xf2, 0xe9, 0xa4, 0x98, 0x3c, 0x1b, 0x27];

// The part that the second nibble gives.
const FOURTEEN_BY_SECOND: [u8; 16] =
    [0x00, 0x8f, 0xd0, 0x1d, 0x37, 0x68, 0xcd, 0xb8, 0x2a, 0x92, 0x75, 0xfa, 0x5f, 0xa5, 0xe7, 0x42];

// 14 times each byte below 16, with the matrix undone, in the basis.
const FOURTEEN_LOW: [u8; 16] =
    [0x00, 0x50, 0x76, 0x26, 0x54, 0x04, 0x22, 0x72, 0xb7, 0xe7, 0xc1, 0x91, 0xe3, 0xb3, 0x95, 0xc5];

// 14 times each multiple of 16, with the matrix undone, in the basis.
const FOURTEEN_HIGH: [u8; 16] =
    [0x00, 0x98, 0xbb, 0x23, 0x07, 0x9f, 0xbc, 0x24, 0x3b, 0xa3, 0x80, 0x18, 0x3c, 0xa4, 0x87, 0x1f];

// The part of 11 times the inverse S-box that the first nibble gives, with the matrix undone, in the basis.
const ELEVEN_BY_FIRST: [u8; 16] =
    [0x00, 0x1b, 0xe9, 0xce, 0x56, 0xa4, 0x27, 0x4d, 0x98, 0xd5, 0x6a, 0x71, 0xf2, 0x83, 0xbf, 0x3c];

// The part that the second nibble gives.
const ELEVEN_BY_SECOND: [u8; 16] =
    [0x00, 0xe7, 0x75, 0x37, 0x68, 0xfa, 0x42, 0x8f, 0x5f, 0xd0, 0xcd, 0x2a, 0x92, 0xb8, 0x1d, 0xa5];

// 11 times each byte below 16, with the matrix undone, in the basis.
const ELEVEN_LOW: [u8; 16] =
    [0x00, 0x2c, 0xd9, 0xf5, 0x79, 0x55, 0xa0, 0x8c, 0x31, 0x1d, 0xe8, 0xc4, 0x48, 0x64, 0x91, 0xbd];

// 11 times each multiple of 16, with the matrix undone, in the basis.
const ELEVEN_HIGH: [u8; 16] =
    [0x00, 0xf2, 0x9b, 0x69, 0x41, 0xb3, 0xda, 0x28, 0xc2, 0x30, 0x59, 0xab, 0x83, 0x71, 0x18, 0xea];

// The part of 13 times the inverse S-box that the first nibble gives, with the matrix undone, in the basis.
const THIRTEEN_BY_FIRST: [u8; 16] =
    [0x00, 0x45, 0xd2, 0x09, 0x36, 0xa1, 0xdb, 0x73, 0x3f, 0x4c, 0xa8, 0xed, 0x97, 0x7a, 0xe4, 0x9e];

// The part that the second nibble gives.
const THIRTEEN_BY_SECOND: [u8; 16] =
    [0x00, 0x93, 0xc1, 0x62, 0xd8, 0x8a, 0xa3, 0x4b, 0xba, 0xf1, 0xe8, 0x7b, 0x52, 0x29, 0x19, 0x30];

// 13 times each byte below 16, with the matrix undone, in the basis.
const THIRTEEN_LOW: [u8; 16] =
    [0x00, 0x27, 0x7d, 0x5a, 0xf0, 0xd7, 0x8d, 0xaa, 0x3e, 0x19, 0x43, 0x64, 0xce, 0xe9, 0xb3, 0x94];

// 13 times each multiple of 16, with the matrix undone, in the basis.
const THIRTEEN_HIGH: [u8; 16] =
    [0x00, 0x97, 0xde, 0x49, 0x42, 0xd5, 0x9c, 0x0b, 0x38, 0xaf, 0xe6, 0x71, 0x7a, 0xed, 0xa4, 0x33];

// The part of 9 times the inverse S-box that the first nibble gives, with the matrix undone, in the basis.
const NINE_BY_FIRST: [u8; 16] =
    [0x00, 0x1a, 0x35, 0xd9, 0x43, 0x6c, 0xec, 0x59, 0x9a, 0xc3, 0xb5, 0xaf, 0x2f, 0x80, 0x76, 0xf6];

// The part that the second nibble gives.
const NINE_BY_SECOND: [u8; 16] =
    [0x00, 0x99, 0xc7, 0xc2, 0xfc, 0xa2, 0x05, 0x65, 0x3e, 0x5b, 0x60, 0xf9, 0x5e, 0xa7, 0x3b, 0x9c];

// 9 times each byte below 16, with the matrix undone, in the basis.
const NINE_LOW: [u8; 16] =
    [0x00, 0xd8, 0x26, 0xfe, 0x22, 0xfa, 0x04, 0xdc, 0xe3, 0x3b, 0xc5, 0x1d, 0xc1, 0x19, 0xe7, 0x3f];

// 9 times each multiple of 16, with the matrix undone, in the basis.
const NINE_HIGH: [u8; 16] =
    [0x00, 0x2f, 0x23, 0x0c, 0xbc, 0x93, 0x9f, 0xb0, 0x3c, 0x13, 0x1f, 0x30, 0x80, 0xaf, 0xa3, 0x8c];

// Undoes ShiftRows (FIPS 197, 5.3.1).
#[inline(always)]
pub(in crate::proved::aes) fn unshift_rows(x: u8x16) -> u8x16 {
    x.swizzle(const { Places::new([0, 13, 10, 7, 4, 1, 14, 11, 8, 5, 2, 15, 12, 9, 6, 3]) })
}

// Undoes ShiftRows in columns that are moved up by one row; row 0 becomes row 3.
#[inline(always)]
fn unshift_next_rows(x: u8x16) -> u8x16 {
    x.swizzle(const { Places::new([1, 14, 11, 4, 5, 2, 15, 8, 9, 6, 3, 12, 13, 10, 7, 0]) })
}

// Moves each column up by two rows, and fills the last two with zeros.
#[inline(always)]
fn two_rows_up(x: u8x16) -> u8x16 {
    (u32x4::from_le_bytes(x) >> u32x4::splat(16)).to_le_bytes()
}

// Moves each column down by two rows, and fills the first two with zeros.
#[inline(always)]
fn two_rows_down(x: u8x16) -> u8x16 {
    (u32x4::from_le_bytes(x) << u32x4::splat(16)).to_le_bytes()
}

// Adds the row two below. The halves of this rotation are added one after the other: side by side they become a shuffle of each
// of the two look-ups that `far` is the sum of, and some processors have only one port for shuffles.
#[inline(always)]
fn add_two_below(near: u8x16, far: u8x16) -> u8x16 {
    near.sum(two_rows_up(far)).sum(two_rows_down(far))
}

// The sum of the multiples of the rows that InvMixColumns adds (FIPS 197, 5.3.3), after InvShiftRows of the next round, and of a
// round key. The multiples come in the order in which they are wanted: those that are moved first.
#[inline(always)]
fn mix(by9: u8x16, by13: u8x16, by11: u8x16, by14: u8x16, key: u8x16) -> u8x16 {
    let next = unshift_next_rows(add_two_below(by11, by9));
    let own = unshift_rows(add_two_below(by14, by13));
    next.sum(own.sum(key))
}

// InvMixColumns of a round key, in the form in which the state is kept.
#[inline(always)]
pub(in crate::proved::aes) fn middle_key(x: u8x16) -> [u8; 16] {
    let (low, high) = nibbles(x);
    mix(
        look_up_both(NINE_LOW, NINE_HIGH, low, high),
        look_up_both(THIRTEEN_LOW, THIRTEEN_HIGH, low, high),
        look_up_both(ELEVEN_LOW, ELEVEN_HIGH, low, high),
        look_up_both(FOURTEEN_LOW, FOURTEEN_HIGH, low, high),
        u8x16::splat(0x12),
    )
    .to_array()
}

// Undoes the affine map of the S-box at each byte, and changes the byte into the basis. 0x12 is the map's constant 0x63 after both.
#[inline(always)]
fn undo_affine(x: u8x16) -> u8x16 {
    let (low, high) = nibbles(x);
    look_up_both(UNDONE_LOW, UNDONE_HIGH, low, high).sum(u8x16::splat(0x12))
}

// AddRoundKey with the last round key, in the form in which the state is kept.
#[inline(always)]
pub(in crate::proved::aes) fn begin(block: &[u8; 16], key: [u8; 16]) -> u8x16 {
    undo_affine(unshift_rows(u8x16::from_array(*block).sum(u8x16::from_array(key))))
}

// A round of the equivalent inverse cipher, with a round key of `middle_key`.
#[inline(always)]
pub(in crate::proved::aes) fn inverse_round(x: u8x16, key: [u8; 16]) -> u8x16 {
    let (u, t) = inverse(x);
    mix(
        look_up_both(NINE_BY_FIRST, NINE_BY_SECOND, u, t),
        look_up_both(THIRTEEN_BY_FIRST, THIRTEEN_BY_SECOND, u, t),
        look_up_both(ELEVEN_BY_FIRST, ELEVEN_BY_SECOND, u, t),
        look_up_both(FOURTEEN_BY_FIRST, FOURTEEN_BY_SECOND, u, t),
        u8x16::from_array(key),
    )
}

// The last round, which has no InvMixColumns. Its result is a block as it is.
#[inline(always)]
pub(in crate::proved::aes) fn end(x: u8x16, key: [u8; 16]) -> [u8; 16] {
    let (u, t) = inverse(x);
    look_up_both(PLAIN_BY_FIRST, PLAIN_BY_SECOND, u, t).sum(u8x16::from_array(key)).to_array()
}
