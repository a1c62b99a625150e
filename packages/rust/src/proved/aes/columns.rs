// Made from crates/aes/src/columns.rt by tools/erase: not to be edited.
//! The rounds of the cipher on columns (FIPS 197, 5.1): each byte is looked up in the table of `round_table`. A column is a word
//! of 32 bits, row 0 its least significant byte.

use crate::proved::aes::round_table::TABLE;

// The column that the byte x in row 0 adds to the result of SubBytes and MixColumns.
#[inline(always)]
fn entry(x: u8) -> u32 {
    TABLE[x as usize]
}

// The S-box of a byte, which stands in row 1 of its entry.
#[inline(always)]
fn substituted(x: u8) -> u8 {
    let [_, value, _, _] = entry(x).to_le_bytes();
    value
}

// A column of the next state. Before SubBytes and ShiftRows its rows 0 to 3 were in these four words. The byte of row r adds its
// entry moved down r rows, around the end.
#[inline(always)]
fn mixed_column(a: u32, b: u32, c: u32, d: u32, key: u32) -> u32 {
    let [row0, _, _, _] = a.to_le_bytes();
    let [_, row1, _, _] = b.to_le_bytes();
    let [_, _, row2, _] = c.to_le_bytes();
    let [_, _, _, row3] = d.to_le_bytes();
    let second = entry(row1).rotate_left(8);
    let third = entry(row2).rotate_left(16);
    let fourth = entry(row3).rotate_left(24);
    (entry(row0) ^ (second ^ (third ^ fourth))) ^ key
}

/// Any round but the last: SubBytes, ShiftRows, MixColumns and AddRoundKey with these four words (FIPS 197, 5.1). Each word is
/// a column, row 0 its least significant byte.
///
/// Not constant time, as [`AesKey::encrypt`](crate::proved::aes::AesKey::encrypt) says: it looks up a table by the 16 bytes of the state.
#[inline(always)]
pub fn round(state: [u32; 4], key: [u32; 4]) -> [u32; 4] {
    let [a, b, c, d] = state;
    [
        mixed_column(a, b, c, d, key[0]),
        mixed_column(b, c, d, a, key[1]),
        mixed_column(c, d, a, b, key[2]),
        mixed_column(d, a, b, c, key[3]),
    ]
}

// A column of the last state. Before SubBytes and ShiftRows its rows 0 to 3 were in these four words.
#[inline(always)]
fn last_column(a: u32, b: u32, c: u32, d: u32, key: u32) -> u32 {
    let [row0, _, _, _] = a.to_le_bytes();
    let [_, row1, _, _] = b.to_le_bytes();
    let [_, _, row2, _] = c.to_le_bytes();
    let [_, _, _, row3] = d.to_le_bytes();
    let plain = u32::from_le_bytes([substituted(row0), substituted(row1), substituted(row2), substituted(row3)]);
    plain ^ key
}

// The last round, which has no MixColumns.
#[inline(always)]
pub(in crate::proved::aes) fn last_round(state: [u32; 4], key: [u32; 4]) -> [u32; 4] {
    let [a, b, c, d] = state;
    [
        last_column(a, b, c, d, key[0]),
        last_column(b, c, d, a, key[1]),
        last_column(c, d, a, b, key[2]),
        last_column(d, a, b, c, key[3]),
    ]
}

// AddRoundKey (5.1.4).
#[inline(always)]
pub(in crate::proved::aes) fn add_key(state: [u32; 4], key: [u32; 4]) -> [u32; 4] {
    [state[0] ^ key[0], state[1] ^ key[1], state[2] ^ key[2], state[3] ^ key[3]]
}

// The columns of a block.
#[inline(always)]
pub(in crate::proved::aes) fn load(block: &[u8; 16]) -> [u32; 4] {
    [
        u32::from_le_bytes([block[0], block[1], block[2], block[3]]),
        u32::from_le_bytes([block[4], block[5], block[6], block[7]]),
        u32::from_le_bytes([block[8], block[9], block[10], block[11]]),
        u32::from_le_bytes([block[12], block[13], block[14], block[15]]),
    ]
}

// The block with these columns.
#[inline(always)]
pub(in crate::proved::aes) fn store(state: [u32; 4]) -> [u8; 16] {
    let a = state[0].to_le_bytes();
    let b = state[1].to_le_bytes();
    let c = state[2].to_le_bytes();
    let d = state[3].to_le_bytes();
    [a[0], a[1], a[2], a[3], b[0], b[1], b[2], b[3], c[0], c[1], c[2], c[3], d[0], d[1], d[2], d[3]]
}
