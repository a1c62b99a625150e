// Made from crates/aes/src/counted_planes.rt by tools/erase: not to be edited.
//! Sixteen counter blocks (SP 800-38D, 6.2; RFC 8452, 4), made directly as eight planes of bits.

use crate::proved::aes::key_planes::{rows, spread};
use crate::proved::aes::planes::{BitPlanes, Planes};
use crate::simd::{Places, u8x16, u8x32};

// A plane for a number below 2^16, one bit for each block: every lane has bit q of the number at the bit of block q.
#[inline(always)]
fn block_bits(number: u32) -> u8x32 {
    let low = u8x16::splat((number % 256) as u8);
    let high = u8x16::splat((number / 256 % 256) as u8);
    low.shuffle(
        high,
        const {
            Places::new([
                0, 1, 2, 3, 4, 5, 6, 7, 8, 9, 10, 11, 12, 13, 14, 15, 16, 17, 18, 19, 20, 21, 22, 23, 24, 25, 26, 27,
                28, 29, 30, 31,
            ])
        },
    )
}

// Clears each byte whose bit in the mask is not set.
#[inline(always)]
fn select(p: Planes, mask: u8x32) -> Planes {
    [p[0] & mask, p[1] & mask, p[2] & mask, p[3] & mask, p[4] & mask, p[5] & mask, p[6] & mask, p[7] & mask]
}

// The plane with all bits set in the lanes of the byte at this index of each block, and no others.
#[inline(always)]
fn lanes_of(place: usize) -> u8x32 {
    let lane = place % 4 * 4 + place / 4;
    let mut lanes = [0; 32];
    lanes[lane] = 255;
    lanes[16 + lane] = 255;
    u8x32::from_array(lanes)
}

// Sixteen blocks of zeros, except that the byte at `place` is `first` plus the block's number, modulo 16.
#[inline(always)]
fn numbers(first: u32, place: usize) -> Planes {
    let lanes = lanes_of(place);
    let none = u8x32::splat(0);
    [
        block_bits(0xaaaa_aaaa >> first) & lanes,
        block_bits(0xcccc_cccc >> first) & lanes,
        block_bits(0xf0f0_f0f0 >> first) & lanes,
        block_bits(0xff00_ff00 >> first) & lanes,
        none,
        none,
        none,
        none,
    ]
}

// Sixteen counter blocks, of which only the low half of the byte at `place` counts: block q is `a` with `first` + q in that
// half if that is below 16, and else `b` with `first` + q - 16.
#[inline(always)]
pub(in crate::proved::aes) fn count_blocks(a: &[u8; 16], b: &[u8; 16], first: u32, place: usize) -> Planes {
    let before = rows(u8x16::from_array(*a));
    let after = rows(u8x16::from_array(*b));
    let apart = Planes::from_half(spread(before ^ after));
    let change = select(apart, block_bits(0xffff_0000 >> first));
    Planes::from_half(spread(before)).add(change).add(numbers(first, place))
}
