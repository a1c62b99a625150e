// Made from crates/chacha/src/lanes.rt by tools/erase: not to be edited.
//! Four or eight blocks of ChaCha20 at once (RFC 8439, 2.3): a vector for each word of the state, a lane for each block.
//! [`four_blocks`] is the public function.

use crate::proved::chacha::state::initial_state;
use crate::proved::octets::{Key32, Nonce, Work, wide, xor_into};
use crate::simd::{Places, Simd, u8x32, u32x4, u32x8};

// The sums of the words, lane by lane.
#[inline(always)]
pub(in crate::proved::chacha) fn sum<const N: usize>(x: Simd<u32, N>, y: Simd<u32, N>) -> Simd<u32, N> {
    x + y
}

// The XORs of the words, rotated to the left by `n` bits.
#[inline(always)]
fn xor_rotated<const N: usize>(x: Simd<u32, N>, y: Simd<u32, N>, n: u32) -> Simd<u32, N> {
    let z = x ^ y;
    z.rotate_left(n)
}

// a += b; d ^= a; d <<<= n, in each lane.
#[inline(always)]
fn add_xor_rotate<const N: usize, const K: usize>(x: &mut [Simd<u32, N>; K], a: usize, b: usize, d: usize, n: u32) {
    let sum = sum(x[a], x[b]);
    let turned = xor_rotated(x[d], sum, n);
    x[a] = sum;
    x[d] = turned;
}

// Half of the quarter round in each lane: the first half, which rotates by 16 and 12, or the second, by 8 and 7.
#[inline(always)]
pub(in crate::proved::chacha) fn half_quarter<const N: usize>(x: &mut [Simd<u32, N>; 4], n: u32, m: u32) {
    add_xor_rotate(x, 0, 1, 3, n);
    add_xor_rotate(x, 2, 3, 1, m);
}

// Half of the round of the columns in each lane: the first half, which rotates by 16 and 12, or the second, by 8 and 7. Each
// operation is done on all four quarter rounds before the next one, so that LLVM keeps 15 of the 16 words in registers.
#[inline(always)]
pub(in crate::proved::chacha) fn half_columns<const N: usize>(x: &mut [Simd<u32, N>; 16], n: u32, m: u32) {
    add_xor_rotate(x, 0, 4, 12, n);
    add_xor_rotate(x, 1, 5, 13, n);
    add_xor_rotate(x, 2, 6, 14, n);
    add_xor_rotate(x, 3, 7, 15, n);
    add_xor_rotate(x, 8, 12, 4, m);
    add_xor_rotate(x, 9, 13, 5, m);
    add_xor_rotate(x, 10, 14, 6, m);
    add_xor_rotate(x, 11, 15, 7, m);
}

// Half of the round of the diagonals in each lane: the first half, which rotates by 16 and 12, or the second, by 8 and 7.
#[inline(always)]
pub(in crate::proved::chacha) fn half_diagonals<const N: usize>(x: &mut [Simd<u32, N>; 16], n: u32, m: u32) {
    add_xor_rotate(x, 0, 5, 15, n);
    add_xor_rotate(x, 1, 6, 12, n);
    add_xor_rotate(x, 2, 7, 13, n);
    add_xor_rotate(x, 3, 4, 14, n);
    add_xor_rotate(x, 10, 15, 5, m);
    add_xor_rotate(x, 11, 12, 6, m);
    add_xor_rotate(x, 8, 13, 7, m);
    add_xor_rotate(x, 9, 14, 4, m);
}

// After the second half of a round a step of other work is done only if more steps than this are left. A run of four blocks has
// 40 places for a step, and about 16 steps to do. If the first places took them all, they would fill the processor there and
// leave it idle at the others. A run of eight blocks has 32 steps to do, and needs no reserve.
#[inline(always)]
pub(in crate::proved::chacha) fn reserve() -> usize {
    if wide() { 0 } else { 20 }
}

// Ten double rounds in halves of rounds, with a step of other work after each half. The steps are done on a copy, which stays in
// registers where a reference would not. A step is a branch, and so it keeps the halves of a round apart: in one basic block
// LLVM would make two shuffles of the rotation by 8, one for each side of the XOR before it.
#[inline(always)]
fn ten_rounds<const N: usize, W: Work>(x: &mut [Simd<u32, N>; 16], work: &mut W) {
    let mut own = *work;
    for _ in 0..10u32 {
        half_columns(x, 16, 12);
        own.step(0);
        half_columns(x, 8, 7);
        own.step(reserve());
        half_diagonals(x, 16, 12);
        own.step(0);
        half_diagonals(x, 8, 7);
        own.step(reserve());
    }
    *work = own;
}

// Adds the words of `start`.
#[inline(always)]
pub(in crate::proved::chacha) fn add<const N: usize>(x: &mut [Simd<u32, N>; 16], start: &[Simd<u32, N>; 16]) {
    for i in 0..16 {
        x[i] = sum(x[i], start[i]);
    }
}

// Sets each lane to the initial state of the block of its counter.
#[inline(always)]
pub(in crate::proved::chacha) fn set_starts<const N: usize>(
    x: &mut [Simd<u32, N>; 16],
    key: &Key32,
    counters: Simd<u32, N>,
    nonce: &Nonce,
) {
    let state = initial_state(key, 0, nonce);
    for i in 0..16 {
        x[i] = Simd::splat(state[i]);
    }
    x[12] = counters;
}

// Returns the words of the blocks that start from the states in the lanes, and adds the number of lanes to the counters in these
// states.
#[inline(always)]
pub(in crate::proved::chacha) fn next_blocks<const N: usize, W: Work>(
    start: &mut [Simd<u32, N>; 16],
    work: &mut W,
) -> [Simd<u32, N>; 16] {
    let mut x = *start;
    ten_rounds(&mut x, work);
    add(&mut x, start);
    start[12] = sum(start[12], Simd::splat(N as u32));
    x
}

// Four counters, one in each lane.
#[inline(always)]
pub(in crate::proved::chacha) fn four_counters(counter: u32) -> u32x4 {
    u32x4::from_array([counter, counter + 1, counter + 2, counter + 3])
}

/// Sets the states from which the blocks with the counters `counter` to `counter + 3` start (RFC 8439, 2.3), one in each
/// lane, for [`four_blocks`]. As for [`crate::proved::chacha::ChaStream::new`], a nonce must never be used twice under one key. The caller shows
/// that the last counter is below 2^32.
#[inline(always)]
pub fn set_four_starts(start: &mut [u32x4; 16], key: &Key32, counter: u32, nonce: &Nonce) {
    set_starts(start, key, four_counters(counter), nonce);
}

/// Returns the words of four blocks at once (RFC 8439, 2.3): vector i has word i of each block, and lane j has the block with the
/// counter `counter + j`, if `start` has the states from which these blocks start, as [`set_four_starts`] sets them. Afterwards
/// `start` has the states of the next four, so a long text sets them once. Steps of `work` are done at the same time.
///
/// The caller shows that the last of the four counters is below 2^32, so that no block past counter 2^32 - 1 is computed.
#[inline(always)]
pub fn four_blocks<W: Work>(start: &mut [u32x4; 16], work: &mut W) -> [u32x4; 16] {
    next_blocks(start, work)
}

// Eight counters, one in each lane.
#[inline(always)]
pub(in crate::proved::chacha) fn eight_counters(counter: u32) -> u32x8 {
    u32x8::from_array([
        counter,
        counter + 1,
        counter + 2,
        counter + 3,
        counter + 4,
        counter + 5,
        counter + 6,
        counter + 7,
    ])
}

// The first four lanes of both vectors.
#[inline(always)]
pub(in crate::proved::chacha) fn low_halves(a: u32x8, b: u32x8) -> u32x8 {
    a.shuffle(b, const { Places::new([0, 1, 2, 3, 8, 9, 10, 11]) })
}

// The last four lanes of both vectors.
#[inline(always)]
pub(in crate::proved::chacha) fn high_halves(a: u32x8, b: u32x8) -> u32x8 {
    a.shuffle(b, const { Places::new([4, 5, 6, 7, 12, 13, 14, 15]) })
}

// Lane j of the four vectors becomes vector j.
#[inline(always)]
fn transposed(a: u32x4, b: u32x4, c: u32x4, d: u32x4) -> (u32x4, u32x4, u32x4, u32x4) {
    let (ac_low, ac_high) = a.interleave(c);
    let (bd_low, bd_high) = b.interleave(d);
    let (first, second) = ac_low.interleave(bd_low);
    let (third, fourth) = ac_high.interleave(bd_high);
    (first, second, third, fourth)
}

// The first two words of both vectors in turn, in each half of the lanes.
#[inline(always)]
fn low_words(a: u32x8, b: u32x8) -> u32x8 {
    a.shuffle(b, const { Places::new([0, 8, 1, 9, 4, 12, 5, 13]) })
}

// The last two words of both vectors in turn, in each half of the lanes.
#[inline(always)]
fn high_words(a: u32x8, b: u32x8) -> u32x8 {
    a.shuffle(b, const { Places::new([2, 10, 3, 11, 6, 14, 7, 15]) })
}

// Lanes j and 4 + j of the four vectors become vector j: processors with vectors of 32 bytes move words within each
// half of one.
#[inline(always)]
fn transposed_halves(a: u32x8, b: u32x8, c: u32x8, d: u32x8) -> (u32x8, u32x8, u32x8, u32x8) {
    let (ac_low, ac_high) = (low_words(a, c), high_words(a, c));
    let (bd_low, bd_high) = (low_words(b, d), high_words(b, d));
    (low_words(ac_low, bd_low), high_words(ac_low, bd_low), low_words(ac_high, bd_high), high_words(ac_high, bd_high))
}

// The words of the lanes, each with its lowest byte first.
#[inline(always)]
pub(in crate::proved::chacha) fn bytes_of(lanes: u32x4) -> [u8; 16] {
    lanes.to_le_bytes().to_array()
}

// XORs four words, serialized, into the 16 bytes that start at offset `at`.
#[inline(always)]
fn xor_at(bytes: &mut [u8], at: usize, words: u32x4) {
    xor_into(&mut bytes[at..at + 16], &bytes_of(words));
}

// The words of eight lanes, each with its lowest byte first.
#[inline(always)]
pub(in crate::proved::chacha) fn bytes_of_eight(lanes: u32x8) -> u8x32 {
    lanes.to_le_bytes()
}

// XORs 32 bytes into 32 others at once.
#[inline(always)]
pub(in crate::proved::chacha) fn xor_thirty_two(bytes: &mut [u8], by: u8x32) {
    let sum = Simd::from_slice(bytes) ^ by;
    sum.copy_to_slice(bytes);
}

// XORs eight words, serialized, into the 32 bytes that start at offset `at`.
#[inline(always)]
fn xor_eight_at(bytes: &mut [u8], at: usize, words: u32x8) {
    xor_thirty_two(&mut bytes[at..at + 32], bytes_of_eight(words));
}

// XORs the words of each lane, serialized, into the block of bytes of that lane.
#[inline(always)]
fn xor_lanes(x: &[u32x4; 16], first: &mut [u8], second: &mut [u8], third: &mut [u8], fourth: &mut [u8]) {
    for q in 0..4 {
        let (a, b, c, d) = transposed(x[4 * q], x[4 * q + 1], x[4 * q + 2], x[4 * q + 3]);
        xor_at(first, 16 * q, a);
        xor_at(second, 16 * q, b);
        xor_at(third, 16 * q, c);
        xor_at(fourth, 16 * q, d);
    }
}

// XORs the words of the lanes, serialized one lane after the other, into 256 bytes.
#[inline(always)]
pub(in crate::proved::chacha) fn xor_serialized(x: &[u32x4; 16], bytes: &mut [u8]) {
    let (front, back) = bytes.split_at_mut(128);
    let (first, second) = front.split_at_mut(64);
    let (third, fourth) = back.split_at_mut(64);
    xor_lanes(x, first, second, third, fourth);
}

// XORs the words of each of eight lanes, serialized, into the block of bytes of that lane.
#[inline(always)]
fn xor_eight_lanes(
    x: &[u32x8; 16],
    first: &mut [u8],
    second: &mut [u8],
    third: &mut [u8],
    fourth: &mut [u8],
    fifth: &mut [u8],
    sixth: &mut [u8],
    seventh: &mut [u8],
    eighth: &mut [u8],
) {
    for q in 0..2 {
        let (a, b, c, d) = transposed_halves(x[8 * q], x[8 * q + 1], x[8 * q + 2], x[8 * q + 3]);
        let (e, f, g, h) = transposed_halves(x[8 * q + 4], x[8 * q + 5], x[8 * q + 6], x[8 * q + 7]);
        xor_eight_at(first, 32 * q, low_halves(a, e));
        xor_eight_at(second, 32 * q, low_halves(b, f));
        xor_eight_at(third, 32 * q, low_halves(c, g));
        xor_eight_at(fourth, 32 * q, low_halves(d, h));
        xor_eight_at(fifth, 32 * q, high_halves(a, e));
        xor_eight_at(sixth, 32 * q, high_halves(b, f));
        xor_eight_at(seventh, 32 * q, high_halves(c, g));
        xor_eight_at(eighth, 32 * q, high_halves(d, h));
    }
}

// XORs the words of eight lanes, serialized one lane after the other, into twice 256 bytes.
#[inline(always)]
pub(in crate::proved::chacha) fn xor_halves(x: &[u32x8; 16], front: &mut [u8], back: &mut [u8]) {
    let (front_low, front_high) = front.split_at_mut(128);
    let (first, second) = front_low.split_at_mut(64);
    let (third, fourth) = front_high.split_at_mut(64);
    let (back_low, back_high) = back.split_at_mut(128);
    let (fifth, sixth) = back_low.split_at_mut(64);
    let (seventh, eighth) = back_high.split_at_mut(64);
    xor_eight_lanes(x, first, second, third, fourth, fifth, sixth, seventh, eighth);
}

// XORs the words of eight lanes, serialized one lane after the other, into 512 bytes.
#[inline(always)]
pub(in crate::proved::chacha) fn xor_eight_serialized(x: &[u32x8; 16], bytes: &mut [u8]) {
    let (front, back) = bytes.split_at_mut(256);
    xor_halves(x, front, back);
}
