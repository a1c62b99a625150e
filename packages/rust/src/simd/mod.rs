//! Vectors of 4 to 64 bytes on stable Rust: what the proved source uses of Rattle's `std::simd`, and no more.
//!
//! No proof is about these modules; the tests compare each operation with a plain definition. A vector is an array of lanes, so
//! that it exists for each number of lanes. An operation takes it apart into registers of the processor ([`Register`]), which are
//! those of x86-64, of AArch64, or integers on any other processor. No address and no branch depends on a lane.

mod cast;
mod moves;
mod places;
mod portable;
mod register;
#[cfg(test)]
mod tests;

#[cfg(all(target_arch = "aarch64", target_endian = "little", target_feature = "neon", not(aeadkit_portable)))]
#[path = "aarch64.rs"]
mod processor;

#[cfg(all(target_arch = "x86_64", not(aeadkit_portable)))]
#[path = "x86_64.rs"]
mod processor;

#[cfg(not(any(
    all(target_arch = "aarch64", target_endian = "little", target_feature = "neon", not(aeadkit_portable)),
    all(target_arch = "x86_64", not(aeadkit_portable))
)))]
use self::portable as processor;

use self::cast::cast;
pub use self::places::Places;
use self::register::{in_registers, whole};
use core::ops::{Add, BitAnd, BitOr, BitXor, Shl, Shr, Sub};

/// Whether a register of the processor holds 32 bytes.
pub const WIDE: bool = processor::WIDE;

/// A vector of `N` lanes.
#[derive(Clone, Copy, Debug, PartialEq, Eq)]
#[repr(transparent)]
pub struct Simd<T, const N: usize>([T; N]);

macro_rules! names {
    ($($name:ident: $lane:ident, $count:literal;)*) => {$(
        #[allow(non_camel_case_types)]
        pub type $name = Simd<$lane, $count>;
    )*};
}
names! {
    u8x8: u8, 8;
    u8x16: u8, 16;
    u8x32: u8, 32;
    u8x64: u8, 64;
    u32x4: u32, 4;
    u32x8: u32, 8;
    u64x2: u64, 2;
    u64x4: u64, 4;
}

/// What a lane holds: a byte, or a word of 4 or 8 bytes.
pub trait Lane: cast::Plain {
    /// A vector with this value in each lane.
    fn copies<const N: usize>(self) -> Simd<Self, N>;
}

macro_rules! lanes {
    ($($lane:ident: $same:ident $shl:ident $shr:ident;)*) => {$(
        impl Lane for $lane {
            #[inline(always)]
            fn copies<const N: usize>(self) -> Simd<$lane, N> {
                in_registers!(Simd<$lane, N>: $same(), self)
            }
        }

        /// Shifts each lane to the left by the count of the first lane. All counts are equal, and smaller than a lane has bits.
        impl<const N: usize> Shl for Simd<$lane, N> {
            type Output = Self;

            #[inline(always)]
            fn shl(self, counts: Self) -> Self {
                in_registers!(Self: $shl(self), counts.only() as u32)
            }
        }

        /// Shifts each lane to the right by the count of the first lane. All counts are equal, and smaller than a lane has bits.
        impl<const N: usize> Shr for Simd<$lane, N> {
            type Output = Self;

            #[inline(always)]
            fn shr(self, counts: Self) -> Self {
                in_registers!(Self: $shr(self), counts.only() as u32)
            }
        }

        impl<const N: usize> Simd<$lane, N> {
            // The count that all lanes hold. The proved source shifts by `splat` alone.
            #[inline(always)]
            fn only(self) -> $lane {
                debug_assert!(self.0.iter().all(|count| *count == self.0[0] && *count < $lane::BITS as $lane));
                self.0[0]
            }
        }
    )*};
}
lanes! {
    u8: same8 shl8 shr8;
    u32: same32 shl32 shr32;
    u64: same64 shl64 shr64;
}

macro_rules! operators {
    ($($operator:ident $name:ident $lane:ident: $operation:ident;)*) => {$(
        /// On each lane, and for a sum or a difference modulo 2 to the number of its bits.
        impl<const N: usize> $operator for Simd<$lane, N> {
            type Output = Self;

            #[inline(always)]
            fn $name(self, other: Self) -> Self {
                in_registers!(Self: $operation(self, other))
            }
        }
    )*};
}
operators! {
    Add add u8: add8;
    Sub sub u8: sub8;
    Add add u32: add32;
    BitAnd bitand u8: and;
    BitOr bitor u32: or;
    BitXor bitxor u8: xor;
    BitXor bitxor u32: xor;
}

impl<T: Lane, const N: usize> Simd<T, N> {
    /// The vector of these lanes.
    #[inline(always)]
    pub fn from_array(lanes: [T; N]) -> Self {
        whole(Simd(lanes))
    }

    /// The lanes.
    #[inline(always)]
    pub const fn to_array(self) -> [T; N] {
        self.0
    }

    /// The vector of the first lanes of a slice that has as many.
    #[inline(always)]
    pub fn from_slice(lanes: &[T]) -> Self {
        whole(Simd(*lanes.first_chunk().expect("the slice has as many lanes as the vector")))
    }

    /// Writes the lanes to the start of a slice that has room for them.
    #[inline(always)]
    pub fn copy_to_slice(self, lanes: &mut [T]) {
        *lanes.first_chunk_mut().expect("the slice has room for the vector") = self.0;
    }

    /// A vector with one value in each lane.
    #[inline(always)]
    pub fn splat(lane: T) -> Self {
        lane.copies()
    }

    /// Moves lanes: each new lane comes from its place.
    #[inline(always)]
    pub fn swizzle<const M: usize>(self, from: Places<T, M>) -> Simd<T, M> {
        moves::moved(self, self, from)
    }

    /// Moves lanes of two vectors, of which the second has the places from `N` on.
    #[inline(always)]
    pub fn shuffle<const M: usize>(self, other: Self, from: Places<T, M>) -> Simd<T, M> {
        moves::moved(self, other, from)
    }

    /// The lanes, the last one first.
    #[inline(always)]
    pub fn reverse(self) -> Self {
        self.swizzle(const { Places::reversed() })
    }

    /// The lanes of both vectors in turn, as two vectors.
    #[inline(always)]
    pub fn interleave(self, other: Self) -> (Self, Self) {
        (self.shuffle(other, const { Places::in_turn(0) }), self.shuffle(other, const { Places::in_turn(N) }))
    }
}

impl<const N: usize> Simd<u8, N> {
    /// Looks each lane of `at` up in the 16 lanes that stand where its own 16 stand. A lane from 128 on gives 0. One from 16 to
    /// 127 does not occur: processors differ there.
    #[inline(always)]
    pub fn swizzle_dyn_within<const WITHIN: usize>(self, at: Self) -> Self {
        const { assert!(WITHIN == 16 && N.is_multiple_of(16)) };
        debug_assert!(at.0.iter().all(|place| !(16..128).contains(place)));
        in_registers!(Self: look_up(self, at))
    }
}

impl<const N: usize> Simd<u32, N> {
    /// Rotates each lane to the left by 1 to 31 bits.
    #[inline(always)]
    pub fn rotate_left(self, count: u32) -> Self {
        in_registers!(Self: rotate32(self), count)
    }
}

macro_rules! bytes {
    ($($lane:ident, $count:literal, $bytes:literal;)*) => {$(
        impl Simd<$lane, $count> {
            /// The bytes of the lanes, the least significant byte of each first.
            #[inline(always)]
            pub fn to_le_bytes(self) -> Simd<u8, $bytes> {
                if cfg!(target_endian = "little") { cast(self) } else { cast(self.0.map($lane::to_le)) }
            }
        }
    )*};
}
bytes! {
    u32, 4, 16;
    u32, 8, 32;
    u64, 2, 16;
    u64, 4, 32;
}

macro_rules! of_bytes {
    ($($lane:ident, $count:literal, $bytes:literal;)*) => {$(
        impl Simd<$lane, $count> {
            /// The lanes of these bytes, the least significant byte of each first.
            #[inline(always)]
            pub fn from_le_bytes(bytes: Simd<u8, $bytes>) -> Self {
                let lanes: [$lane; $count] = cast(bytes);
                Simd(if cfg!(target_endian = "little") { lanes } else { lanes.map($lane::from_le) })
            }
        }
    )*};
}
of_bytes! {
    u32, 4, 16;
    u64, 2, 16;
    u64, 4, 32;
}
