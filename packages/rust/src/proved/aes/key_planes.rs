// Made from crates/aes/src/key_planes.rt by tools/erase: not to be edited.
//! The round keys of AES (FIPS 197, 5.2) as eight planes of bits each, for eight blocks.

use crate::proved::aes::lanes::from_basis;
use crate::proved::aes::planes::HalfPlanes;
use crate::proved::octets::le_bytes;
use crate::simd::{Places, u8x16};

// Eight planes of 16 lanes as numbers, the first lane least significant. Numbers are aligned to 16 bytes, so an XOR can read a
// plane from memory. A plane of an array of vectors, which may be unaligned, would have to be loaded first.
pub(in crate::proved::aes) type KeyPlanes = [u128; 8];

/// The round keys of AES as planes of bits, for eight blocks: 1,920 bytes, of which AES-128 and AES-192 leave some zeros.
pub type RoundKeyPlanes = [KeyPlanes; 15];

// Spreads bit j of each of 16 key bytes to all eight bits of its lane.
#[inline(always)]
fn plane(key: u8x16, j: u8) -> u8x16 {
    u8x16::splat(0) - ((key >> u8x16::splat(j)) & u8x16::splat(1))
}

// The planes of eight blocks that all have these 16 key bytes.
#[inline(always)]
pub(in crate::proved::aes) fn spread(key: u8x16) -> HalfPlanes {
    [
        plane(key, 0),
        plane(key, 1),
        plane(key, 2),
        plane(key, 3),
        plane(key, 4),
        plane(key, 5),
        plane(key, 6),
        plane(key, 7),
    ]
}

// The number whose bytes are the lanes, the first lane least significant.
#[inline(always)]
fn number_of(lanes: u8x16) -> u128 {
    u128::from_le_bytes(lanes.to_array())
}

// The lanes that are the bytes of a number, the least significant first.
#[inline(always)]
fn lanes_in(number: u128) -> u8x16 {
    u8x16::from_array(le_bytes(number))
}

// Stores the planes as numbers.
#[inline(always)]
fn pack(p: HalfPlanes) -> KeyPlanes {
    [
        number_of(p[0]),
        number_of(p[1]),
        number_of(p[2]),
        number_of(p[3]),
        number_of(p[4]),
        number_of(p[5]),
        number_of(p[6]),
        number_of(p[7]),
    ]
}

// Loads the planes from these numbers.
#[inline(always)]
pub(in crate::proved::aes) fn unpack(words: &KeyPlanes) -> HalfPlanes {
    [
        lanes_in(words[0]),
        lanes_in(words[1]),
        lanes_in(words[2]),
        lanes_in(words[3]),
        lanes_in(words[4]),
        lanes_in(words[5]),
        lanes_in(words[6]),
        lanes_in(words[7]),
    ]
}

// Moves bytes from the order of a block to the order of lanes, row by row.
#[inline(always)]
pub(in crate::proved::aes) fn rows(key: u8x16) -> u8x16 {
    key.swizzle(const { Places::new([0, 4, 8, 12, 1, 5, 9, 13, 2, 6, 10, 14, 3, 7, 11, 15]) })
}

// Moves bytes from the order of a block after ShiftRows to the order of lanes, row by row.
#[inline(always)]
fn unshifted_rows(key: u8x16) -> u8x16 {
    key.swizzle(const { Places::new([0, 4, 8, 12, 13, 1, 5, 9, 10, 14, 2, 6, 7, 11, 15, 3]) })
}

// A round key between the first and the last, row by row, with the constant of the S-box: the basis takes the one that it has
// there to the one that it has here.
#[inline(always)]
fn middle(key: [u8; 16]) -> u8x16 {
    from_basis(unshifted_rows(u8x16::from_array(key)))
}

// Writes the round keys as planes for eight blocks. Every key but the first has the constant of the S-box added, which the S-box
// in planes leaves out, and the last is in the order of the bytes of a block. They are written in place, since returning them
// would copy 1,920 bytes.
pub(in crate::proved::aes) fn ready_planes(keys: &mut RoundKeyPlanes, ready: &[[u8; 16]; 15], last: usize) {
    keys[0] = pack(spread(rows(u8x16::from_array(ready[0]))));
    for n in 1..last {
        keys[n] = pack(spread(middle(ready[n])));
    }
    keys[last] = pack(spread(u8x16::from_array(ready[last])));
}
