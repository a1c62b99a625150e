// Made from crates/keywrap/src/steps.rt by tools/erase: not to be edited.
//! The steps of wrapping and unwrapping by index (RFC 3394, 2.2.1 and 2.2.2), from any first value of A. From step to step A is half
//! a vector: in memory, each step would wait until the one before has stored it.

use crate::proved::aes::{AesKey, InverseKey};
use crate::proved::octets::Block;
use crate::simd::{Places, u8x8, u8x16};

// The default initial value (RFC 3394, 2.2.3.1). No caller here needs another one.
pub(in crate::proved::keywrap) const INITIAL_VALUE: [u8; 8] = [0xa6; 8];

// The default initial value as a number.
const INITIAL_NUMBER: u64 = 0xa6a6_a6a6_a6a6_a6a6;

// Whether the length is that of a wrapping.
pub(in crate::proved::keywrap) fn has_wrapped_length(bytes: &[u8]) -> bool {
    bytes.len() >= 24 && bytes.len() % 8 == 0
}

// Whether the checks of an unwrapped register hold, all at once. The answer is public: it is whether the bytes were a valid
// wrapping, which the caller is told.
pub(in crate::proved::keywrap) fn is_valid(difference: u64) -> bool {
    difference == 0
}

// Whether A is the default initial value. All eight bytes are compared at once, as one number, so that the time doesn't tell how
// many are right.
pub(in crate::proved::keywrap) fn is_initial_value(first: &[u8; 8]) -> bool {
    is_valid(u64::from_be_bytes(*first).wrapping_sub(INITIAL_NUMBER))
}

// The first eight bytes.
pub(in crate::proved::keywrap) fn first_eight(bytes: &[u8]) -> [u8; 8] {
    let mut first = [0; 8];
    first.copy_from_slice(&bytes[..8]);
    first
}

// The XOR of half a block with the number of a step.
#[inline(always)]
fn xor_number(half: u8x8, t: u64) -> u8x8 {
    half ^ u8x8::from_array(t.to_be_bytes())
}

// The block with these two halves.
#[inline(always)]
pub(in crate::proved::keywrap) fn join_halves(first: u8x8, second: u8x8) -> [u8; 16] {
    first.shuffle(second, const { Places::new([0, 1, 2, 3, 4, 5, 6, 7, 8, 9, 10, 11, 12, 13, 14, 15]) }).to_array()
}

// The two halves of a block.
#[inline(always)]
pub(in crate::proved::keywrap) fn halves(block: &[u8; 16]) -> (u8x8, u8x8) {
    let bytes = u8x16::from_array(*block);
    (
        bytes.swizzle(const { Places::new([0, 1, 2, 3, 4, 5, 6, 7]) }),
        bytes.swizzle(const { Places::new([8, 9, 10, 11, 12, 13, 14, 15]) }),
    )
}

// A after step t, which also changes the block at `place`.
#[inline(always)]
fn wrap_step(key: &AesKey, t: u64, place: usize, first: u8x8, blocks: &mut [u8]) -> u8x8 {
    let block = join_halves(first, u8x8::from_slice(&blocks[place..place + 8]));
    let (half, second) = halves(key.encrypt_in_registers(&Block::new(block)).bytes());
    blocks[place..place + 8].copy_from_slice(&second.to_array());
    xor_number(half, t)
}

// A before step t, which is undone at the block at `place`.
#[inline(always)]
fn unwrap_step(inverse: &InverseKey, t: u64, place: usize, first: u8x8, blocks: &mut [u8]) -> u8x8 {
    let block = join_halves(xor_number(first, t), u8x8::from_slice(&blocks[place..place + 8]));
    let (half, second) = halves(inverse.decrypt(&Block::new(block)).bytes());
    blocks[place..place + 8].copy_from_slice(&second.to_array());
    half
}

// Does the steps of all six rounds.
pub(in crate::proved::keywrap) fn wrap_blocks(key: &AesKey, first: &mut [u8; 8], blocks: &mut [u8]) {
    let count = blocks.len() / 8;
    let mut a = u8x8::from_array(*first);
    for round in 0..6 {
        for i in 0..count {
            a = wrap_step(key, (count * round + i + 1) as u64, 8 * i, a, blocks);
        }
    }
    *first = a.to_array();
}

// Undoes the steps of all six rounds, the last one first.
pub(in crate::proved::keywrap) fn unwrap_blocks(key: &AesKey, first: &mut [u8; 8], blocks: &mut [u8]) {
    let ready = key.inverse();
    let count = blocks.len() / 8;
    let mut a = u8x8::from_array(*first);
    for round in (0..6).rev() {
        for i in (0..count).rev() {
            a = unwrap_step(&ready, (count * round + i + 1) as u64, 8 * i, a, blocks);
        }
    }
    *first = a.to_array();
}

// Does the steps of all six rounds on a register in one slice, A first.
pub(in crate::proved::keywrap) fn wrap_register(key: &AesKey, bytes: &mut [u8]) {
    let mut first = first_eight(bytes);
    wrap_blocks(key, &mut first, &mut bytes[8..]);
    bytes[..8].copy_from_slice(&first);
}

// Undoes the steps of all six rounds on a register in one slice, A first.
pub(in crate::proved::keywrap) fn unwrap_register(key: &AesKey, bytes: &mut [u8]) {
    let mut first = first_eight(bytes);
    unwrap_blocks(key, &mut first, &mut bytes[8..]);
    bytes[..8].copy_from_slice(&first);
}
