// Made from crates/chacha/src/row_beside.rt by tools/erase: not to be edited.
//! One block of ChaCha20 by rows beside four in lanes (RFC 8439, 2.3): the instructions of a row fit into idle slots
//! of the lanes.

use crate::proved::chacha::lanes::{
    add, four_counters, half_columns, half_diagonals, reserve, set_starts, xor_serialized,
};
use crate::proved::chacha::rows::Rows;
use crate::proved::octets::{Key32, Nonce, Work, xor_into};
use crate::simd::u32x4;

// Ten double rounds of the lanes, and of the row beside them, with a place for a step of other work after each half.
#[inline(always)]
fn ten_rounds<W: Work>(x: &mut [u32x4; 16], row: &mut [u32x4; 4], work: &mut W) {
    let mut own = *work;
    for _ in 0..10u32 {
        half_columns(x, 16, 12);
        row.half_columns(16, 12);
        own.step(0);
        half_columns(x, 8, 7);
        row.half_columns(8, 7);
        own.step(reserve());
        half_diagonals(x, 16, 12);
        row.half_diagonals(16, 12);
        own.step(0);
        half_diagonals(x, 8, 7);
        row.half_diagonals(8, 7);
        own.step(reserve());
    }
    *work = own;
}

// XORs the first 320 bytes of the key stream from a counter on into `bytes`, and offers 40 places for steps of other work. It is a
// separate function, since its frame would slow down runs of eight blocks.
#[inline(never)]
pub(in crate::proved::chacha) fn xor_five_blocks<W: Work>(
    key: &Key32,
    counter: u32,
    nonce: &Nonce,
    bytes: &mut [u8],
    work: &mut W,
) {
    let mut start = [u32x4::splat(0); 16];
    set_starts(&mut start, key, four_counters(counter + 1), nonce);
    let row_start = <[u32x4; 4]>::starts_at(key, counter, nonce);
    let mut x = start;
    let mut row = row_start;
    ten_rounds(&mut x, &mut row, work);
    add(&mut x, &start);
    let mut first = [0; 64];
    row.put_sums(&row_start, &mut first);
    let (front, back) = bytes.split_at_mut(64);
    xor_into(front, &first);
    xor_serialized(&x, back);
}
