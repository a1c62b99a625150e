// Made from crates/aes/src/first_round.rt by tools/erase: not to be edited.
//! The first round (FIPS 197, 5.1) of up to 128 counter blocks that differ in one byte alone. The other bytes go through it once
//! for all blocks, and the values of that byte together, each a bit of eight planes.

use crate::proved::aes::key::AesKey;
use crate::proved::aes::key_planes::{RoundKeyPlanes, rows, spread, unpack};
use crate::proved::aes::planes::{BitPlanes, HalfPlanes, Planes, lower, round, transpose};
use crate::simd::{Places, u8x8, u8x16, u8x32};

// Eight times the number of each lane.
const EIGHTS: [u8; 32] = [
    0, 8, 16, 24, 32, 40, 48, 56, 64, 72, 80, 88, 96, 104, 112, 120, 128, 136, 144, 152, 160, 168, 176, 184, 192, 200,
    208, 216, 224, 232, 240, 248,
];

// Lane l of 8 lanes at place 4 l, with lane 8 of both vectors, a zero, at the others.
const FIRST_COLUMNS: [usize; 32] =
    [0, 8, 8, 8, 1, 8, 8, 8, 2, 8, 8, 8, 3, 8, 8, 8, 4, 8, 8, 8, 5, 8, 8, 8, 6, 8, 8, 8, 7, 8, 8, 8];

// The bytes `first` + 8 l + k in the lanes l, modulo 256, each XORed with `key`.
#[inline(always)]
fn counted(first: u8, key: u8, k: u8) -> u8x32 {
    (u8x32::from_array(EIGHTS) + u8x32::splat(first.wrapping_add(k))) ^ u8x32::splat(key)
}

// The planes of 128 bytes that count from `first` on, modulo 256, each XORed with `key`.
#[inline(always)]
fn numbers(first: u8, key: u8) -> HalfPlanes {
    lower(transpose([
        counted(first, key, 0),
        counted(first, key, 1),
        counted(first, key, 2),
        counted(first, key, 3),
        counted(first, key, 4),
        counted(first, key, 5),
        counted(first, key, 6),
        counted(first, key, 7),
    ]))
}

// What the bytes that differ add to the first columns of 128 states, for each bit of a byte: four lists, of which list p / 4 has, at bit
// k of its byte 4 (p mod 4) + r, what byte 8 p + k adds to row r.
pub(in crate::proved::aes) type Columns = [[[u8; 16]; 4]; 8];

// What MixColumns adds to each row of a column for these values of the byte in the row of the byte at `place`.
#[inline(always)]
fn column_of(once: HalfPlanes, place: usize) -> [HalfPlanes; 4] {
    let twice = once.double();
    let thrice = twice.add(once);
    if place == 0 { [twice, once, once, thrice] } else { [once, once, thrice, twice] }
}

// Writes the lanes. By `to_array` they would be written one by one.
#[inline(always)]
fn write(list: &mut [u8; 16], lanes: u8x16) {
    lanes.copy_to_slice(list);
}

// Writes the lanes of four vectors in turn, four of each in each list.
#[inline(always)]
fn weave(lists: &mut [[u8; 16]; 4], a: u8x16, b: u8x16, c: u8x16, d: u8x16) {
    let (front, back) = a.interleave(c);
    let (other_front, other_back) = b.interleave(d);
    let (first, second) = front.interleave(other_front);
    let (third, fourth) = back.interleave(other_back);
    write(&mut lists[0], first);
    write(&mut lists[1], second);
    write(&mut lists[2], third);
    write(&mut lists[3], fourth);
}

// Writes the planes of four rows of a column, byte by byte in turn.
#[inline(always)]
fn weave_planes(columns: &mut Columns, column: [HalfPlanes; 4]) {
    let [a, b, c, d] = column;
    weave(&mut columns[0], a[0], b[0], c[0], d[0]);
    weave(&mut columns[1], a[1], b[1], c[1], d[1]);
    weave(&mut columns[2], a[2], b[2], c[2], d[2]);
    weave(&mut columns[3], a[3], b[3], c[3], d[3]);
    weave(&mut columns[4], a[4], b[4], c[4], d[4]);
    weave(&mut columns[5], a[5], b[5], c[5], d[5]);
    weave(&mut columns[6], a[6], b[6], c[6], d[6]);
    weave(&mut columns[7], a[7], b[7], c[7], d[7]);
}

// Eight bytes of four lists of 16, from byte 8 `run` on, each in the first lane of a row.
#[inline(always)]
fn first_lanes(lists: &[[u8; 16]; 4], run: usize) -> u8x32 {
    let list = &lists[run / 2];
    let from = 8 * (run % 2);
    u8x8::from_slice(&list[from..from + 8]).shuffle(u8x8::splat(0), const { Places::new(FIRST_COLUMNS) })
}

// The first round of 128 blocks that count on from this one in the byte at `place`. Their states differ in the first column alone:
// `base` becomes the state, in planes, if the S-box makes 0 of that byte, and `columns` what it adds to the first columns.
#[inline(always)]
pub(in crate::proved::aes) fn share_round(
    base: &mut HalfPlanes,
    columns: &mut Columns,
    key: &AesKey,
    keys: &RoundKeyPlanes,
    block: &[u8; 16],
    place: usize,
) {
    let first_key = key.plain_key(0);
    let mut start = (u8x16::from_array(*block) ^ u8x16::from_array(first_key)).to_array();
    // The S-box without its constant takes 0 to 0.
    start[place] = 0;
    *base = round(spread(rows(u8x16::from_array(start))), unpack(&keys[1]));
    let once = numbers(block[place], first_key[place]).substitute();
    weave_planes(columns, column_of(once, place));
}

// The states of blocks 16 `run` to 16 `run` + 15 after the first round.
#[inline(always)]
pub(in crate::proved::aes) fn sixteen_states(base: HalfPlanes, columns: &Columns, run: usize) -> Planes {
    Planes::from_half(base).add([
        first_lanes(&columns[0], run),
        first_lanes(&columns[1], run),
        first_lanes(&columns[2], run),
        first_lanes(&columns[3], run),
        first_lanes(&columns[4], run),
        first_lanes(&columns[5], run),
        first_lanes(&columns[6], run),
        first_lanes(&columns[7], run),
    ])
}
