// Made from crates/aes/src/planes.rt by tools/erase: not to be edited.
//! Sixteen blocks at once (FIPS 197, 5.1) as eight planes of bits, without tables: bit j of the byte in row r and column c of
//! block q is in plane j, in lane 16 (q / 8) + 4 r + c, at bit q mod 8.

use crate::simd::{Places, u8x16, u8x32, u8x64};

// The planes of sixteen blocks.
pub(in crate::proved::aes) type Planes = [u8x32; 8];

// The planes of eight blocks: the first 16 lanes of `Planes`, or the last 16.
pub(in crate::proved::aes) type HalfPlanes = [u8x16; 8];

// The lane from which ShiftRows moves each lane.
const SHIFTED: [usize; 32] = [
    0, 1, 2, 3, 5, 6, 7, 4, 10, 11, 8, 9, 15, 12, 13, 14, 16, 17, 18, 19, 21, 22, 23, 20, 26, 27, 24, 25, 31, 28, 29,
    30,
];

// The lane from which ShiftRows moves each lane, if the new lanes are in the order of the bytes of a block.
const SHIFTED_OUT: [usize; 32] = [
    0, 5, 10, 15, 1, 6, 11, 12, 2, 7, 8, 13, 3, 4, 9, 14, 16, 21, 26, 31, 17, 22, 27, 28, 18, 23, 24, 29, 19, 20, 25,
    30,
];

// The lane one row down in the same column; row 0 is below row 3.
const BELOW: [usize; 32] = [
    4, 5, 6, 7, 8, 9, 10, 11, 12, 13, 14, 15, 0, 1, 2, 3, 20, 21, 22, 23, 24, 25, 26, 27, 28, 29, 30, 31, 16, 17, 18,
    19,
];

// The lane two rows down in the same column.
const TWO_BELOW: [usize; 32] = [
    8, 9, 10, 11, 12, 13, 14, 15, 0, 1, 2, 3, 4, 5, 6, 7, 24, 25, 26, 27, 28, 29, 30, 31, 16, 17, 18, 19, 20, 21, 22,
    23,
];

// The first 16 entries of SHIFTED, SHIFTED_OUT, BELOW and TWO_BELOW, for planes of 16 lanes.
const HALF_SHIFTED: [usize; 16] = [0, 1, 2, 3, 5, 6, 7, 4, 10, 11, 8, 9, 15, 12, 13, 14];

const HALF_SHIFTED_OUT: [usize; 16] = [0, 5, 10, 15, 1, 6, 11, 12, 2, 7, 8, 13, 3, 4, 9, 14];

const HALF_BELOW: [usize; 16] = [4, 5, 6, 7, 8, 9, 10, 11, 12, 13, 14, 15, 0, 1, 2, 3];

const HALF_TWO_BELOW: [usize; 16] = [8, 9, 10, 11, 12, 13, 14, 15, 0, 1, 2, 3, 4, 5, 6, 7];

// The first 16 of 32 lanes.
const FIRST: [usize; 16] = [0, 1, 2, 3, 4, 5, 6, 7, 8, 9, 10, 11, 12, 13, 14, 15];

// The last 16 of 32 lanes.
const SECOND: [usize; 16] = [16, 17, 18, 19, 20, 21, 22, 23, 24, 25, 26, 27, 28, 29, 30, 31];

// 16 lanes and the 16 of another vector.
const ALL: [usize; 32] = [
    0, 1, 2, 3, 4, 5, 6, 7, 8, 9, 10, 11, 12, 13, 14, 15, 16, 17, 18, 19, 20, 21, 22, 23, 24, 25, 26, 27, 28, 29, 30,
    31,
];

// The first 16 of 32 lanes, and the first 16 of another vector.
const FIRST_OF_TWO: [usize; 32] = [
    0, 1, 2, 3, 4, 5, 6, 7, 8, 9, 10, 11, 12, 13, 14, 15, 32, 33, 34, 35, 36, 37, 38, 39, 40, 41, 42, 43, 44, 45, 46,
    47,
];

// The last 16 of 32 lanes, and the last 16 of another vector.
const SECOND_OF_TWO: [usize; 32] = [
    16, 17, 18, 19, 20, 21, 22, 23, 24, 25, 26, 27, 28, 29, 30, 31, 48, 49, 50, 51, 52, 53, 54, 55, 56, 57, 58, 59, 60,
    61, 62, 63,
];

// 32 lanes and the 32 of another vector.
const BOTH: [usize; 64] = [
    0, 1, 2, 3, 4, 5, 6, 7, 8, 9, 10, 11, 12, 13, 14, 15, 16, 17, 18, 19, 20, 21, 22, 23, 24, 25, 26, 27, 28, 29, 30,
    31, 32, 33, 34, 35, 36, 37, 38, 39, 40, 41, 42, 43, 44, 45, 46, 47, 48, 49, 50, 51, 52, 53, 54, 55, 56, 57, 58, 59,
    60, 61, 62, 63,
];

// 16 lanes twice.
const TWICE: [usize; 32] =
    [0, 1, 2, 3, 4, 5, 6, 7, 8, 9, 10, 11, 12, 13, 14, 15, 0, 1, 2, 3, 4, 5, 6, 7, 8, 9, 10, 11, 12, 13, 14, 15];

// The S-box without its constant, on each byte of eight planes: a circuit of 83 XOR gates and 32 AND gates. They are in the
// order that took the least time on planes of 16 bytes, of those that were tried.
macro_rules! sbox_circuit {
    ($p:expr) => {{
        let x0 = $p[7];
        let x1 = $p[6];
        let x2 = $p[5];
        let x3 = $p[4];
        let x4 = $p[3];
        let x5 = $p[2];
        let x6 = $p[1];
        let x7 = $p[0];
        let y13 = x6 ^ x0;
        let t0 = x2 ^ x1;
        let y14 = x3 ^ x5;
        let y12 = y14 ^ y13;
        let y1 = t0 ^ x7;
        let y5 = x6 ^ y1;
        let t1 = y12 ^ x4;
        let t8 = y5 & y1;
        let y2 = x0 ^ y1;
        let y20 = x1 ^ t1;
        let y8 = x0 ^ x5;
        let y9 = x0 ^ x3;
        let y15 = t1 ^ x5;
        let y11 = y9 ^ y20;
        let y10 = t0 ^ y15;
        let t2 = y15 & y12;
        let y17 = y10 ^ y11;
        let y7 = x7 ^ y11;
        let y19 = y8 ^ y10;
        let t12 = y9 & y11;
        let y16 = y11 ^ t0;
        let t15 = y10 & y8;
        let t16 = t15 ^ t12;
        let t7 = y16 & y13;
        let y4 = y1 ^ x3;
        let y18 = y16 ^ x0;
        let t10 = y7 & y2;
        let y21 = y13 ^ y16;
        let t13 = y17 & y14;
        let t5 = x7 & y4;
        let t6 = t5 ^ t2;
        let y3 = y5 ^ y8;
        let t18 = t16 ^ t6;
        let t9 = t8 ^ t7;
        let y6 = x7 ^ y15;
        let t3 = y6 & y3;
        let t11 = t7 ^ t10;
        let t22 = t18 ^ y19;
        let t4 = t3 ^ t2;
        let t14 = t12 ^ t13;
        let t19 = t9 ^ t14;
        let t17 = t14 ^ t4;
        let t20 = t11 ^ t16;
        let t21 = t17 ^ y20;
        let t23 = t19 ^ y21;
        let t26 = t23 & t21;
        let t25 = t21 ^ t22;
        let t31 = t22 ^ t26;
        let t24 = t20 ^ y18;
        let t30 = t24 ^ t23;
        let t27 = t24 ^ t26;
        let t32 = t31 & t30;
        let t33 = t32 ^ t24;
        let t34 = t23 ^ t33;
        let t35 = t27 ^ t33;
        let t28 = t27 & t25;
        let t36 = t24 & t35;
        let t37 = t36 ^ t34;
        let t38 = t36 ^ t27;
        let t29 = t28 ^ t22;
        let t42 = t29 ^ t33;
        let z10 = t37 & y3;
        let t39 = t29 & t38;
        let z5 = y7 & t29;
        let z14 = y2 & t29;
        let t40 = t25 ^ t39;
        let t41 = t40 ^ t37;
        let t44 = t37 ^ t33;
        let z2 = t33 & x7;
        let z6 = t42 & y11;
        let t43 = t29 ^ t40;
        let t45 = t42 ^ t41;
        let z4 = t40 & y1;
        let z3 = t43 & y16;
        let z12 = t43 & y13;
        let z7 = t45 & y17;
        let z9 = y12 & t44;
        let t50 = z2 ^ z12;
        let z0 = y15 & t44;
        let t49 = z10 ^ z9;
        let z11 = y4 & t33;
        let z13 = y5 & t40;
        let t53 = z3 ^ z0;
        let t51 = z2 ^ z5;
        let t57 = t53 ^ t50;
        let t54 = z6 ^ z7;
        let t59 = t54 ^ z3;
        let t48 = z5 ^ z13;
        let z8 = t41 & y10;
        let z15 = t42 & y9;
        let t47 = z10 ^ z11;
        let z16 = t45 & y14;
        let t46 = z15 ^ z16;
        let t52 = z8 ^ z7;
        let z17 = y8 & t41;
        let t58 = z4 ^ t46;
        let z1 = t37 & y6;
        let t64 = t59 ^ z4;
        let t62 = t52 ^ t58;
        let t61 = t57 ^ z14;
        let t63 = t58 ^ t49;
        let t60 = t46 ^ t57;
        let t65 = t62 ^ t61;
        let s7 = t48 ^ t60;
        let t67 = t65 ^ t64;
        let t56 = t48 ^ z12;
        let s5 = t65 ^ t47;
        let t66 = z1 ^ t63;
        let s0 = t59 ^ t63;
        let t55 = z16 ^ z17;
        let s4 = t51 ^ t66;
        let s6 = t56 ^ t62;
        let s2 = t55 ^ t67;
        let s3 = t53 ^ t66;
        let s1 = t64 ^ s3;
        [s7, s6, s5, s4, s3, s2, s1, s0]
    }};
}

// XORs eight planes with eight others, which adds the bytes.
macro_rules! xor_each {
    ($p:expr, $q:expr) => {
        [
            $p[0] ^ $q[0],
            $p[1] ^ $q[1],
            $p[2] ^ $q[2],
            $p[3] ^ $q[3],
            $p[4] ^ $q[4],
            $p[5] ^ $q[5],
            $p[6] ^ $q[6],
            $p[7] ^ $q[7],
        ]
    };
}

// Moves the lanes of eight planes: each new lane comes from its place in the list.
macro_rules! swizzle_each {
    ($p:expr, $places:expr) => {
        [
            $p[0].swizzle(const { Places::new($places) }),
            $p[1].swizzle(const { Places::new($places) }),
            $p[2].swizzle(const { Places::new($places) }),
            $p[3].swizzle(const { Places::new($places) }),
            $p[4].swizzle(const { Places::new($places) }),
            $p[5].swizzle(const { Places::new($places) }),
            $p[6].swizzle(const { Places::new($places) }),
            $p[7].swizzle(const { Places::new($places) }),
        ]
    };
}

// Doubles each byte of eight planes in the field: the bits move up by one plane, and the highest is reduced.
macro_rules! double_each {
    ($p:expr) => {
        [$p[7], $p[0] ^ $p[7], $p[1], $p[2] ^ $p[7], $p[3] ^ $p[7], $p[4], $p[5], $p[6]]
    };
}

// Eight planes of 16 lanes, or of 32.
pub(in crate::proved::aes) trait BitPlanes: Copy {
    // The planes of which each half is a copy of these 16 lanes.
    fn from_half(half: HalfPlanes) -> Self;

    // Applies the S-box without its constant to each byte. The constant is part of the round keys.
    fn substitute(self) -> Self;

    // Adds the bytes.
    fn add(self, other: Self) -> Self;

    // Doubles each byte in the field.
    fn double(self) -> Self;

    // ShiftRows.
    fn shift_rows(self) -> Self;

    // ShiftRows, to lanes in the order of the bytes of a block.
    fn shift_out(self) -> Self;

    // Each row becomes the row below it.
    fn below(self) -> Self;

    // Each row becomes the row two below it.
    fn two_below(self) -> Self;
}

impl BitPlanes for Planes {
    #[inline(always)]
    fn from_half(half: HalfPlanes) -> Planes {
        swizzle_each!(half, TWICE)
    }

    #[inline(always)]
    fn substitute(self) -> Planes {
        sbox_circuit!(self)
    }

    #[inline(always)]
    fn add(self, other: Planes) -> Planes {
        xor_each!(self, other)
    }

    #[inline(always)]
    fn double(self) -> Planes {
        double_each!(self)
    }

    #[inline(always)]
    fn shift_rows(self) -> Planes {
        swizzle_each!(self, SHIFTED)
    }

    #[inline(always)]
    fn shift_out(self) -> Planes {
        swizzle_each!(self, SHIFTED_OUT)
    }

    #[inline(always)]
    fn below(self) -> Planes {
        swizzle_each!(self, BELOW)
    }

    #[inline(always)]
    fn two_below(self) -> Planes {
        swizzle_each!(self, TWO_BELOW)
    }
}

impl BitPlanes for HalfPlanes {
    #[inline(always)]
    fn from_half(half: HalfPlanes) -> HalfPlanes {
        half
    }

    #[inline(always)]
    fn substitute(self) -> HalfPlanes {
        sbox_circuit!(self)
    }

    #[inline(always)]
    fn add(self, other: HalfPlanes) -> HalfPlanes {
        xor_each!(self, other)
    }

    #[inline(always)]
    fn double(self) -> HalfPlanes {
        double_each!(self)
    }

    #[inline(always)]
    fn shift_rows(self) -> HalfPlanes {
        swizzle_each!(self, HALF_SHIFTED)
    }

    #[inline(always)]
    fn shift_out(self) -> HalfPlanes {
        swizzle_each!(self, HALF_SHIFTED_OUT)
    }

    #[inline(always)]
    fn below(self) -> HalfPlanes {
        swizzle_each!(self, HALF_BELOW)
    }

    #[inline(always)]
    fn two_below(self) -> HalfPlanes {
        swizzle_each!(self, HALF_TWO_BELOW)
    }
}

// The first 16 lanes.
#[inline(always)]
pub(in crate::proved::aes) fn lower(p: Planes) -> HalfPlanes {
    swizzle_each!(p, FIRST)
}

// The last 16 lanes.
#[inline(always)]
pub(in crate::proved::aes) fn upper(p: Planes) -> HalfPlanes {
    swizzle_each!(p, SECOND)
}

// The 16 lanes of `p`, then the 16 of `q`.
#[inline(always)]
pub(in crate::proved::aes) fn both_halves(p: HalfPlanes, q: HalfPlanes) -> Planes {
    [
        p[0].shuffle(q[0], const { Places::new(ALL) }),
        p[1].shuffle(q[1], const { Places::new(ALL) }),
        p[2].shuffle(q[2], const { Places::new(ALL) }),
        p[3].shuffle(q[3], const { Places::new(ALL) }),
        p[4].shuffle(q[4], const { Places::new(ALL) }),
        p[5].shuffle(q[5], const { Places::new(ALL) }),
        p[6].shuffle(q[6], const { Places::new(ALL) }),
        p[7].shuffle(q[7], const { Places::new(ALL) }),
    ]
}

// MixColumns.
#[inline(always)]
fn mix_columns<P: BitPlanes>(p: P) -> P {
    let next = p.below();
    let both = p.add(next);
    next.add(both.two_below()).add(both.double())
}

// Any round but the last (FIPS 197, 5.1). The constant of the S-box is part of the key.
#[inline(always)]
pub(in crate::proved::aes) fn round<P: BitPlanes>(x: P, key: P) -> P {
    mix_columns(x.shift_rows().substitute()).add(key)
}

// The last round (FIPS 197, 5.1), which leaves the lanes in the order of the bytes of a block.
#[inline(always)]
pub(in crate::proved::aes) fn last_round<P: BitPlanes>(x: P, key: P) -> P {
    x.shift_out().substitute().add(key)
}

// Exchanges bits between two planes whose numbers differ by `by`, which is 1, 2 or 4. A bit of x at a place whose binary digit
// of weight `by` is 1 moves down by `by` places into y, and a bit of y at a place where that digit is 0 moves up into x. The
// mask has these places of y.
#[inline(always)]
fn exchange(x: u8x32, y: u8x32, by: u8, mask: u8) -> (u8x32, u8x32) {
    let moved = ((x >> u8x32::splat(by)) ^ y) & u8x32::splat(mask);
    (x ^ (moved << u8x32::splat(by)), y ^ moved)
}

// Transposes the bits of each lane: bit k of plane j becomes bit j of plane k.
#[inline(always)]
pub(in crate::proved::aes) fn transpose(p: Planes) -> Planes {
    let (a0, a1) = exchange(p[0], p[1], 1, 0x55);
    let (a2, a3) = exchange(p[2], p[3], 1, 0x55);
    let (a4, a5) = exchange(p[4], p[5], 1, 0x55);
    let (a6, a7) = exchange(p[6], p[7], 1, 0x55);
    let (b0, b2) = exchange(a0, a2, 2, 0x33);
    let (b1, b3) = exchange(a1, a3, 2, 0x33);
    let (b4, b6) = exchange(a4, a6, 2, 0x33);
    let (b5, b7) = exchange(a5, a7, 2, 0x33);
    let (c0, c4) = exchange(b0, b4, 4, 0x0f);
    let (c1, c5) = exchange(b1, b5, 4, 0x0f);
    let (c2, c6) = exchange(b2, b6, 4, 0x0f);
    let (c3, c7) = exchange(b3, b7, 4, 0x0f);
    [c0, c1, c2, c3, c4, c5, c6, c7]
}

// The first halves of four planes, concatenated, and their second halves.
#[inline(always)]
fn halves(a: u8x32, b: u8x32, c: u8x32, d: u8x32) -> (u8x64, u8x64) {
    let first = a.shuffle(b, const { Places::new(FIRST_OF_TWO) });
    let second = c.shuffle(d, const { Places::new(FIRST_OF_TWO) });
    let third = a.shuffle(b, const { Places::new(SECOND_OF_TWO) });
    let fourth = c.shuffle(d, const { Places::new(SECOND_OF_TWO) });
    (first.shuffle(second, const { Places::new(BOTH) }), third.shuffle(fourth, const { Places::new(BOTH) }))
}

// Returns sixteen blocks, in fours, from planes whose lanes are in the order of the bytes of a block.
#[inline(always)]
pub(in crate::proved::aes) fn store(p: Planes) -> (u8x64, u8x64, u8x64, u8x64) {
    let blocks = transpose(p);
    let (first, third) = halves(blocks[0], blocks[1], blocks[2], blocks[3]);
    let (second, fourth) = halves(blocks[4], blocks[5], blocks[6], blocks[7]);
    (first, second, third, fourth)
}
