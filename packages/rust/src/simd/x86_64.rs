//! The registers of x86-64: 16 bytes with SSE2, which each such processor has, and 32 with AVX2 if the build is for processors that
//! have it.
//!
//! Look-ups are the instruction PSHUFB of SSSE3, which x86-64-v2 has and the library requires. Where the build was not told that the
//! processor has it, the instruction stands as assembly.

#![allow(unsafe_code)]

use super::cast::{Plain, cast};
use super::register::Register;
use core::arch::x86_64::*;

pub const WIDE: bool = cfg!(target_feature = "avx2");
pub const LOOKS_UP: bool = true;

pub type Short = __m128i;
#[cfg(target_feature = "avx2")]
pub type Long = __m256i;
#[cfg(not(target_feature = "avx2"))]
pub type Long = [__m128i; 2];

// SAFETY: a register of integers.
unsafe impl Plain for __m128i {}
// SAFETY: a register of integers.
unsafe impl Plain for __m256i {}

// The operations that are one instruction, or a shift of words.
macro_rules! instructions {
    (
        copies { $($copies:ident $lane:ident as $signed:ident: $set:ident;)* }
        two { $($two:ident: $on_two:ident;)* }
        shifts { $($shift:ident: $by_count:ident;)* }
        byte_shifts { $($byte_shift:ident: $by_words:ident, $operator:tt;)* }
    ) => {
        $(
            #[inline(always)]
            fn $copies(lane: $lane) -> Self {
                // SAFETY: the processor has SSE2, and AVX2 where this is compiled for `__m256i`; so in each function below.
                unsafe { $set(lane as $signed) }
            }
        )*
        $(
            #[inline(always)]
            fn $two(self, other: Self) -> Self {
                // SAFETY: as above.
                unsafe { $on_two(self, other) }
            }
        )*
        $(
            #[inline(always)]
            fn $shift(self, count: u32) -> Self {
                // SAFETY: as above.
                unsafe { $by_count(self, _mm_cvtsi32_si128(count as i32)) }
            }
        )*
        $(
            // No instruction shifts bytes. What comes from the byte beside is cleared.
            #[inline(always)]
            fn $byte_shift(self, count: u32) -> Self {
                // SAFETY: as above.
                let words = unsafe { $by_words(self, _mm_cvtsi32_si128(count as i32)) };
                words.and(Self::same8((0xff_u32 $operator count) as u8))
            }
        )*
    };
}

impl Register for __m128i {
    instructions! {
        copies { same8 u8 as i8: _mm_set1_epi8; same32 u32 as i32: _mm_set1_epi32; same64 u64 as i64: _mm_set1_epi64x; }
        two {
            and: _mm_and_si128; or: _mm_or_si128; xor: _mm_xor_si128;
            add8: _mm_add_epi8; add32: _mm_add_epi32; sub8: _mm_sub_epi8;
            look_up: look_up;
        }
        shifts {
            shl32: _mm_sll_epi32; shl64: _mm_sll_epi64; shr32: _mm_srl_epi32; shr64: _mm_srl_epi64;
        }
        byte_shifts { shl8: _mm_sll_epi16, <<; shr8: _mm_srl_epi16, >>; }
    }

    #[inline(always)]
    fn rotate32(self, count: u32) -> Self {
        // LLVM finds these two by itself, but does not see through assembly.
        if !cfg!(target_feature = "ssse3") {
            if count == 8 {
                return self.look_up(cast([3u8, 0, 1, 2, 7, 4, 5, 6, 11, 8, 9, 10, 15, 12, 13, 14]));
            }
            if count == 16 {
                return self.look_up(cast([2u8, 3, 0, 1, 6, 7, 4, 5, 10, 11, 8, 9, 14, 15, 12, 13]));
            }
        }
        self.shl32(count).or(self.shr32(32 - count))
    }
}

#[cfg(target_feature = "ssse3")]
use _mm_shuffle_epi8 as look_up;

#[cfg(not(target_feature = "ssse3"))]
#[inline(always)]
unsafe fn look_up(mut table: __m128i, at: __m128i) -> __m128i {
    // SAFETY: the processor has the instruction, since the library requires x86-64-v2. It changes one register.
    unsafe {
        core::arch::asm!(
            "pshufb {table}, {at}",
            table = inout(xmm_reg) table,
            at = in(xmm_reg) at,
            options(pure, nomem, nostack, preserves_flags)
        );
    }
    table
}

#[cfg(target_feature = "avx2")]
impl Register for __m256i {
    instructions! {
        copies {
            same8 u8 as i8: _mm256_set1_epi8; same32 u32 as i32: _mm256_set1_epi32; same64 u64 as i64: _mm256_set1_epi64x;
        }
        two {
            and: _mm256_and_si256; or: _mm256_or_si256; xor: _mm256_xor_si256;
            add8: _mm256_add_epi8; add32: _mm256_add_epi32; sub8: _mm256_sub_epi8;
            look_up: _mm256_shuffle_epi8;
        }
        shifts {
            shl32: _mm256_sll_epi32; shl64: _mm256_sll_epi64; shr32: _mm256_srl_epi32; shr64: _mm256_srl_epi64;
        }
        byte_shifts { shl8: _mm256_sll_epi16, <<; shr8: _mm256_srl_epi16, >>; }
    }

    #[inline(always)]
    fn rotate32(self, count: u32) -> Self {
        self.shl32(count).or(self.shr32(32 - count))
    }
}
