// Made from crates/octets/src/compare.rt by tools/erase: not to be edited.
//! Equality and XOR of lists of bytes.

use crate::simd::Simd;

/// Returns whether two arrays of 16 bytes are equal. No proof says that the time does not tell where they differ.
pub fn same(a: &[u8; 16], b: &[u8; 16]) -> bool {
    a == b
}

// XORs `src` into `dst`, byte by byte.
#[inline(always)]
fn xor_each(dst: &mut [u8], src: &[u8]) {
    for i in 0..dst.len() {
        dst[i] ^= src[i];
    }
}

// Returns the XOR of two slices of `N` bytes, computed as one vector.
#[inline(always)]
fn xored_lanes<const N: usize>(a: &[u8], b: &[u8]) -> Simd<u8, N> {
    Simd::from_slice(a) ^ Simd::from_slice(b)
}

// Writes a vector of `N` bytes.
#[inline(always)]
fn put_lanes<const N: usize>(dst: &mut [u8], lanes: Simd<u8, N>) {
    lanes.copy_to_slice(dst);
}

// XORs `N` bytes into `N` others as one vector.
#[inline(always)]
fn xor_lanes<const N: usize>(dst: &mut [u8], src: &[u8]) {
    let sum = xored_lanes::<N>(dst, src);
    put_lanes(dst, sum);
}

// XORs `src` into `dst`, fewer than 8 bytes: four at once if there are at least four, and the rest one by one.
#[inline(always)]
fn xor_seven(dst: &mut [u8], src: &[u8]) {
    if dst.len() < 4 {
        xor_each(dst, src);
        return;
    }
    let (front, back) = dst.split_at_mut(4);
    xor_lanes::<4>(front, &src[..4]);
    xor_each(back, &src[4..]);
}

// XORs `src` into `dst`, fewer than 16 bytes: eight at once if there are at least eight, and then the rest.
#[inline(always)]
fn xor_fifteen(dst: &mut [u8], src: &[u8]) {
    if dst.len() < 8 {
        xor_seven(dst, src);
        return;
    }
    let (front, back) = dst.split_at_mut(8);
    xor_lanes::<8>(front, &src[..8]);
    xor_seven(back, &src[8..]);
}

// XORs `src` into `dst`, 16 bytes or more, sixteen at a time. The last 16 are read before the others are written and may
// overlap them. The overlap is written twice, but no byte is written alone: a later read of a whole vector would have to wait
// for it.
#[inline(always)]
fn xor_sixteens(dst: &mut [u8], src: &[u8]) {
    let start = dst.len() - 16;
    let last = xored_lanes::<16>(&dst[start..], &src[start..]);
    let mut at = 0;
    while at < start {
        xor_lanes::<16>(&mut dst[at..at + 16], &src[at..at + 16]);
        at += 16;
    }
    put_lanes(&mut dst[start..], last);
}

/// XORs `src` into `dst`. The caller shows that they have the same length.
#[inline(always)]
pub fn xor_into(dst: &mut [u8], src: &[u8]) {
    if dst.len() < 16 {
        xor_fifteen(dst, src);
    } else {
        xor_sixteens(dst, src);
    }
}

/// Returns the XOR of two arrays of 16 bytes.
pub fn xored(a: &[u8; 16], b: &[u8; 16]) -> [u8; 16] {
    let mut out = *a;
    xor_into(&mut out, b);
    out
}
