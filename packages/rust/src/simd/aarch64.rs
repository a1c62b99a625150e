//! The registers of AArch64: 16 bytes with NEON, which each such processor of a target with `std` has.

#![allow(unsafe_code)]

use super::cast::{Plain, cast};
use super::register::Register;
use core::arch::aarch64::*;

pub const WIDE: bool = false;
pub const LOOKS_UP: bool = true;

pub type Short = uint8x16_t;
pub type Long = [uint8x16_t; 2];

macro_rules! plain {
    ($($name:ident)*) => {$(
        // SAFETY: a register of integers.
        unsafe impl Plain for $name {}
    )*};
}
plain! { uint8x16_t uint32x4_t uint64x2_t }

macro_rules! instructions {
    (
        copies { $($copies:ident $lane:ident: $set:ident;)* }
        two { $($two:ident: $on_two:ident;)* }
        shifts { $($left:ident $right:ident $signed:ident: $shift:ident $counts:ident;)* }
    ) => {
        $(
            #[inline(always)]
            fn $copies(lane: $lane) -> Self {
                // SAFETY: the processor has NEON; so in each function below.
                cast(unsafe { $set(lane) })
            }
        )*
        $(
            #[inline(always)]
            fn $two(self, other: Self) -> Self {
                // SAFETY: as above.
                cast(unsafe { $on_two(cast(self), cast(other)) })
            }
        )*
        $(
            #[inline(always)]
            fn $left(self, count: u32) -> Self {
                // SAFETY: as above.
                cast(unsafe { $shift(cast(self), $counts(count as $signed)) })
            }

            // A shift to the left by a negative number is one to the right.
            #[inline(always)]
            fn $right(self, count: u32) -> Self {
                // SAFETY: as above.
                cast(unsafe { $shift(cast(self), $counts(-(count as $signed))) })
            }
        )*
    };
}

impl Register for uint8x16_t {
    instructions! {
        copies { same8 u8: vdupq_n_u8; same32 u32: vdupq_n_u32; same64 u64: vdupq_n_u64; }
        two {
            and: vandq_u8; or: vorrq_u8; xor: veorq_u8;
            add8: vaddq_u8; add32: vaddq_u32; sub8: vsubq_u8;
            look_up: vqtbl1q_u8;
        }
        shifts {
            shl8 shr8 i8: vshlq_u8 vdupq_n_s8;
            shl32 shr32 i32: vshlq_u32 vdupq_n_s32;
            shl64 shr64 i64: vshlq_u64 vdupq_n_s64;
        }
    }

    #[inline(always)]
    fn rotate32(self, count: u32) -> Self {
        self.shl32(count).or(self.shr32(32 - count))
    }
}
