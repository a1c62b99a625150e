// Made from crates/octets/src/words.rt by tools/erase: not to be edited.
//! Numbers and their bytes, in both orders; two arrays joined. The bytes of a number are made as one vector: of `to_le_bytes` LLVM
//! makes a shift for each byte.

use crate::simd::{u8x16, u64x2};

// The bytes of a number, the least significant one first.
#[inline(always)]
fn lanes_of(word: u128) -> u8x16 {
    let low = (word % 0x1_0000_0000_0000_0000) as u64;
    let high = (word >> 64) as u64;
    u64x2::from_array([low, high]).to_le_bytes()
}

/// The 16 bytes of a number, the least significant one first.
#[inline(always)]
pub fn le_bytes(word: u128) -> [u8; 16] {
    lanes_of(word).to_array()
}

/// The 16 bytes of a number, the most significant one first.
#[inline(always)]
pub fn be_bytes(word: u128) -> [u8; 16] {
    lanes_of(word).reverse().to_array()
}

/// Returns two arrays of one length, joined.
pub fn joined<const N: usize, const T: usize>(first: &[u8; N], second: &[u8; N]) -> [u8; T] {
    let mut both = [0; T];
    let bytes = &mut both[..];
    bytes[..N].copy_from_slice(first);
    bytes[N..].copy_from_slice(second);
    both
}

// The number that at most 3 bytes spell, the least significant byte first.
#[inline(always)]
fn number_of_three(bytes: &[u8]) -> u32 {
    match bytes.len() {
        0 => 0,
        1 => u32::from(bytes[0]),
        2 => u32::from(bytes[0]) + 256 * u32::from(bytes[1]),
        _ => u32::from(bytes[0]) + 256 * u32::from(bytes[1]) + 65536 * u32::from(bytes[2]),
    }
}

// The number that at most 7 bytes spell, the least significant byte first.
#[inline(always)]
fn number_of_seven(bytes: &[u8]) -> u64 {
    match bytes.split_first_chunk::<4>() {
        Some((front, back)) => u64::from(u32::from_le_bytes(*front)) + u64::from(number_of_three(back)) * 0x1_0000_0000,
        None => u64::from(number_of_three(bytes)),
    }
}

/// Returns fewer than 16 bytes, padded with zeros to 16.
// They are read eight and four at a time, and written at once.
#[inline(always)]
pub fn padded(bytes: &[u8]) -> [u8; 16] {
    match bytes.split_first_chunk::<8>() {
        Some((front, back)) => {
            let low = u64::from_le_bytes(*front);
            let high = number_of_seven(back);
            le_bytes(u128::from(low) + u128::from(high) * 0x1_0000_0000_0000_0000)
        }
        None => le_bytes(u128::from(number_of_seven(bytes))),
    }
}
