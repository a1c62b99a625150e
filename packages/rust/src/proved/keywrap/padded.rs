// Made from crates/keywrap/src/padded.rt by tools/erase: not to be edited.
//! Wrapping with padding into a new vector (RFC 5649, 4.1 and 4.2).

use crate::kit::alloc::{AllocError, Allocator, Vec};
use crate::proved::aes::AesKey;
use crate::proved::keywrap::steps::{first_eight, halves, is_valid, join_halves, unwrap_blocks, wrap_register};
use crate::proved::octets::{Block, Fault};
use crate::simd::u8x8;

// The constant of the alternative initial value as a number, the first byte most significant (RFC 5649, 3).
const CONSTANT: u32 = 0xa659_59a6;

// The register as a block, if it is one block long.
fn only_block(bytes: &[u8]) -> Block {
    let mut block = [0; 16];
    block.copy_from_slice(bytes);
    Block::new(block)
}

// Encrypts A and the blocks in place: one AES block, or six rounds of steps.
pub(in crate::proved::keywrap) fn encrypt_register(key: &AesKey, bytes: &mut [u8]) {
    if bytes.len() == 16 {
        bytes.copy_from_slice(key.encrypt_in_registers(&only_block(bytes)).bytes());
    } else {
        wrap_register(key, bytes);
    }
}

// Decrypts A and the blocks: undoes `encrypt_register`.
fn decrypt_register(key: &AesKey, first: &mut [u8; 8], blocks: &mut [u8]) {
    if blocks.len() == 8 {
        let block = Block::new(join_halves(u8x8::from_array(*first), u8x8::from_slice(blocks)));
        let (half, second) = halves(key.inverse().decrypt(&block).bytes());
        *first = half.to_array();
        blocks.copy_from_slice(&second.to_array());
    } else {
        unwrap_blocks(key, first, blocks);
    }
}

// The length that A states, if it is an alternative initial value: its last four bytes (RFC 5649, 3).
fn stated_length(first: &[u8; 8]) -> u32 {
    let mut length = [0; 4];
    length.copy_from_slice(&first[4..]);
    u32::from_be_bytes(length)
}

// A number that is 0 exactly if A begins with the constant of an alternative initial value (RFC 5649, 3, check 1).
fn constant_difference(first: &[u8; 8]) -> u32 {
    let mut constant = [0; 4];
    constant.copy_from_slice(&first[..4]);
    u32::from_be_bytes(constant).wrapping_sub(CONSTANT)
}

// The last eight bytes.
fn last_eight(blocks: &[u8]) -> [u8; 8] {
    let mut last = [0; 8];
    last.copy_from_slice(&blocks[blocks.len() - 8..]);
    last
}

// The last `count` of eight bytes as a number, the first one least significant, if `count` is under 8. The bytes before them
// are shifted out, so that no branch and no address depends on `count`.
fn last_number(last: &[u8; 8], count: u64) -> u64 {
    let number = u64::from_le_bytes(*last) >> 8;
    number >> (8 * (7 - count % 8))
}

// How many bytes come after the first n, the length that A states: at least 2^63 if there are fewer than n. The subtraction wraps, so
// that there is no branch.
fn count_behind(first: &[u8; 8], blocks: &[u8]) -> u64 {
    (blocks.len() as u64).wrapping_sub(u64::from(stated_length(first)))
}

// A number that is 0 exactly if A and the blocks are the register of the text whose length A states (RFC 5649, 3). Three numbers
// are added, each of which is 0 if one of the standard's checks holds: the constant is right; the stated length n is at most
// the length of the blocks, and less than eight bytes shorter; the bytes after the first n are zeros, all of which are among
// the last eight bytes. No check ends early, and none reads at a place that n chooses: n is not authenticated yet. The sum is
// below 2^64.
fn difference(first: &[u8; 8], blocks: &[u8]) -> u64 {
    let constant = constant_difference(first);
    let count = count_behind(first, blocks);
    let number = last_number(&last_eight(blocks), count);
    u64::from(constant) + count / 8 + number
}

// The length of the text of which A and the blocks are the register, or `None` if there is none. The length is used only if there
// is such a text: then it is public, as it is the length of what the caller is given.
fn text_length(first: &[u8; 8], blocks: &[u8]) -> Option<usize> {
    if is_valid(difference(first, blocks)) { Some(stated_length(first) as usize) } else { None }
}

// Decrypts A and the blocks. If they were the wrapping of a text, returns its length, and the blocks begin with the text.
pub(in crate::proved::keywrap) fn unwrap_padded_register(
    key: &AesKey,
    first: &mut [u8; 8],
    blocks: &mut [u8],
) -> Option<usize> {
    decrypt_register(key, first, blocks);
    text_length(first, blocks)
}

// The alternative initial value for a text of n bytes (RFC 5649, 3).
pub(in crate::proved::keywrap) fn alternative_value(n: u32) -> [u8; 8] {
    let mut value = [0; 8];
    value[..4].copy_from_slice(&CONSTANT.to_be_bytes());
    value[4..].copy_from_slice(&n.to_be_bytes());
    value
}

// The register before the first step: A and the padded text.
fn padded_register<A: Allocator>(alloc: A, text: &[u8]) -> Result<Vec<u8, A>, AllocError> {
    let zeros = (8 - text.len() % 8) % 8;
    let mut bytes = Vec::with_capacity(alloc, 8 + text.len() + zeros)?;
    bytes.extend_from_slice(&alternative_value(text.len() as u32))?;
    bytes.extend_from_slice(text)?;
    bytes.extend_from_slice(&[0; 8][..zeros])?;
    Ok(bytes)
}

// Whether the bytes are A and at least one whole block of eight bytes.
pub(in crate::proved::keywrap) fn has_blocks(bytes: &[u8]) -> bool {
    bytes.len() >= 16 && bytes.len() % 8 == 0
}

/// Returns the wrapping of a text with padding, eight bytes longer than the padded text (RFC 5649, 4.1).
/// Faults, in this order: `WrapLength` for an empty text, `TextTooLong` past 2^32 - 1 bytes, `OutOfMemory`
/// if the allocation of the result fails.
pub fn wrap_padded<A: Allocator>(alloc: A, key: &AesKey, text: &[u8]) -> Result<Vec<u8, A>, Fault> {
    if text.is_empty() {
        return Err(Fault::WrapLength);
    }
    if text.len() as u64 >= 1 << 32 {
        return Err(Fault::TextTooLong);
    }
    let mut wrapped = padded_register(alloc, text)?;
    encrypt_register(key, &mut wrapped);
    Ok(wrapped)
}

/// Returns the text of a wrapping with padding (RFC 5649, 4.2). Faults, in this order: `WrapLength` if the length is under 16
/// or not a multiple of 8, `TextTooLong` past 2^32 + 8 bytes, `OutOfMemory` if the allocation of the padded text fails,
/// `WrapIntegrity` if the bytes are not a valid wrapping with padding under this key.
pub fn unwrap_padded<A: Allocator>(alloc: A, key: &AesKey, wrapped: &[u8]) -> Result<Vec<u8, A>, Fault> {
    if !has_blocks(wrapped) {
        return Err(Fault::WrapLength);
    }
    if wrapped.len() as u64 > (1 << 32) + 8 {
        return Err(Fault::TextTooLong);
    }
    let mut first = first_eight(wrapped);
    let mut text = Vec::from_slice(alloc, &wrapped[8..])?;
    match unwrap_padded_register(key, &mut first, &mut text) {
        Some(length) => {
            text.truncate(length);
            Ok(text)
        }
        None => Err(Fault::WrapIntegrity),
    }
}
