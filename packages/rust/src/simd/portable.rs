//! Registers for any processor: 16 bytes in integers. Bytes are computed eight at a time.

use super::cast::cast;
use super::register::Register;

#[allow(dead_code, reason = "the modules of other processors have their own")]
pub const WIDE: bool = false;
#[allow(dead_code, reason = "as above")]
pub const LOOKS_UP: bool = false;
#[allow(dead_code, reason = "as above")]
pub type Short = [u64; 2];
#[allow(dead_code, reason = "as above")]
pub type Long = [[u64; 2]; 2];

// 1 in each byte, and all bits but the highest in each byte.
const ONES: u64 = 0x0101_0101_0101_0101;
const LOW: u64 = 0x7f7f_7f7f_7f7f_7f7f;

// On each integer of 8 bytes.
#[inline(always)]
fn each64(a: [u64; 2], b: [u64; 2], f: impl Fn(u64, u64) -> u64) -> [u64; 2] {
    [f(a[0], b[0]), f(a[1], b[1])]
}

// On each integer of 4 bytes.
#[inline(always)]
fn each32(a: [u64; 2], b: [u64; 2], f: impl Fn(u32, u32) -> u32) -> [u64; 2] {
    let (a, b): ([u32; 4], [u32; 4]) = (cast(a), cast(b));
    cast([f(a[0], b[0]), f(a[1], b[1]), f(a[2], b[2]), f(a[3], b[3])])
}

impl Register for [u64; 2] {
    #[inline(always)]
    fn same8(lane: u8) -> Self {
        Self::same64(u64::from(lane) * ONES)
    }

    #[inline(always)]
    fn same32(lane: u32) -> Self {
        cast([lane; 4])
    }

    #[inline(always)]
    fn same64(lane: u64) -> Self {
        [lane; 2]
    }

    #[inline(always)]
    fn and(self, other: Self) -> Self {
        each64(self, other, |x, y| x & y)
    }

    #[inline(always)]
    fn or(self, other: Self) -> Self {
        each64(self, other, |x, y| x | y)
    }

    #[inline(always)]
    fn xor(self, other: Self) -> Self {
        each64(self, other, |x, y| x ^ y)
    }

    // The highest bits are left out of the sums, so that no byte carries into the next.
    #[inline(always)]
    fn add8(self, other: Self) -> Self {
        each64(self, other, |x, y| ((x & LOW) + (y & LOW)) ^ ((x ^ y) & !LOW))
    }

    #[inline(always)]
    fn add32(self, other: Self) -> Self {
        each32(self, other, u32::wrapping_add)
    }

    // The highest bits are set, so that no byte borrows from the next.
    #[inline(always)]
    fn sub8(self, other: Self) -> Self {
        each64(self, other, |x, y| ((x | !LOW) - (y & LOW)) ^ ((x ^ !y) & !LOW))
    }

    #[inline(always)]
    fn shl8(self, count: u32) -> Self {
        self.shl64(count).and(Self::same8((0xff_u32 << count) as u8))
    }

    #[inline(always)]
    fn shl32(self, count: u32) -> Self {
        each32(self, self, |x, _| x << count)
    }

    #[inline(always)]
    fn shl64(self, count: u32) -> Self {
        each64(self, self, |x, _| x << count)
    }

    #[inline(always)]
    fn shr8(self, count: u32) -> Self {
        self.shr64(count).and(Self::same8((0xff_u32 >> count) as u8))
    }

    #[inline(always)]
    fn shr32(self, count: u32) -> Self {
        each32(self, self, |x, _| x >> count)
    }

    #[inline(always)]
    fn shr64(self, count: u32) -> Self {
        each64(self, self, |x, _| x >> count)
    }

    #[inline(always)]
    fn rotate32(self, count: u32) -> Self {
        each32(self, self, |x, _| x.rotate_left(count))
    }

    #[inline(always)]
    fn look_up(self, at: Self) -> Self {
        let table: [u8; 16] = cast(self);
        [chosen(&table, at[0]), chosen(&table, at[1])]
    }
}

// Chooses among the 16 bytes of a table by each byte of `at`, by one bit of it after the other.
#[inline(always)]
fn chosen(table: &[u8; 16], at: u64) -> u64 {
    // All bits of each byte whose bit in `at` is set.
    let all = |bit: u32| ((at >> bit) & ONES) * 0xff;
    let (first, second, third, fourth, none) = (all(0), all(1), all(2), all(3), all(7));
    let choose = |by: u64, x: u64, y: u64| x ^ ((x ^ y) & by);
    let spread = |x: u8| u64::from(x) * ONES;
    let two = |i: usize| spread(table[i]) ^ (spread(table[i] ^ table[i + 1]) & first);
    let four = |i: usize| choose(second, two(i), two(i + 2));
    let eight = |i: usize| choose(third, four(i), four(i + 4));
    choose(fourth, eight(0), eight(8)) & !none
}
