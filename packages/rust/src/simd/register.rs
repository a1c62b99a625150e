//! What registers do, and vectors in registers.

use super::cast::{Plain, cast};
use super::processor::{Long, Short};

/// A register, or several that stand for a longer one. The number in a name is the number of bits of a lane.
pub trait Register: Plain {
    fn same8(lane: u8) -> Self;
    fn same32(lane: u32) -> Self;
    fn same64(lane: u64) -> Self;
    fn and(self, other: Self) -> Self;
    fn or(self, other: Self) -> Self;
    fn xor(self, other: Self) -> Self;
    fn add8(self, other: Self) -> Self;
    fn add32(self, other: Self) -> Self;
    fn sub8(self, other: Self) -> Self;
    fn shl8(self, count: u32) -> Self;
    fn shl32(self, count: u32) -> Self;
    fn shl64(self, count: u32) -> Self;
    fn shr8(self, count: u32) -> Self;
    fn shr32(self, count: u32) -> Self;
    fn shr64(self, count: u32) -> Self;
    /// To the left by 1 to 31.
    fn rotate32(self, count: u32) -> Self;
    /// Looks each byte of `at` up in the 16 bytes that stand where its own 16 stand. One from 128 on gives 0.
    fn look_up(self, at: Self) -> Self;
}

macro_rules! by_halves {
    (copies { $($copies:ident $lane:ident;)* } two { $($two:ident)* } counted { $($counted:ident)* }) => {
        $(
            #[inline(always)]
            fn $copies(lane: $lane) -> Self {
                [R::$copies(lane); 2]
            }
        )*
        $(
            #[inline(always)]
            fn $two(self, other: Self) -> Self {
                [self[0].$two(other[0]), self[1].$two(other[1])]
            }
        )*
        $(
            #[inline(always)]
            fn $counted(self, count: u32) -> Self {
                [self[0].$counted(count), self[1].$counted(count)]
            }
        )*
    };
}

/// Two registers that stand for one of twice the length.
impl<R: Register> Register for [R; 2] {
    by_halves! {
        copies { same8 u8; same32 u32; same64 u64; }
        two { and or xor add8 add32 sub8 look_up }
        counted { shl8 shl32 shl64 shr8 shr32 shr64 rotate32 }
    }
}

/// Does an operation on vectors of one type: takes them into registers, and makes a vector of what comes out. The operation and
/// its number are the same for each register.
macro_rules! in_registers {
    ($vector:ty: $operation:ident($($given:expr),*) $(, $number:expr)?) => {{
        use $crate::simd::processor::{Long, Short};
        use $crate::simd::register::{self, Register};
        match size_of::<$vector>() {
            4 | 8 => register::narrowed(Register::$operation($(register::widened($given),)* $($number)?)),
            16 => cast(Short::$operation($(cast($given),)* $($number)?)),
            32 => cast(Long::$operation($(cast($given),)* $($number)?)),
            64 => cast(<[Long; 2]>::$operation($(cast($given),)* $($number)?)),
            _ => unreachable!("no vector has another size"),
        }
    }};
}
pub(super) use in_registers;

/// A vector of 4 or 8 bytes, and zeros.
#[inline(always)]
pub fn widened<V: Plain>(vector: V) -> [u64; 2] {
    match size_of::<V>() {
        4 => [cast::<V, u32>(vector).into(), 0],
        _ => [cast(vector), 0],
    }
}

/// The vector of which [`widened`] makes this.
#[inline(always)]
pub fn narrowed<V: Plain>([first, _]: [u64; 2]) -> V {
    match size_of::<V>() {
        4 => cast(first as u32),
        _ => cast(first),
    }
}

/// The same vector, loaded as a whole. LLVM would otherwise carry the lanes of an array through a loop one by one.
#[inline(always)]
pub fn whole<V: Plain>(vector: V) -> V {
    match size_of::<V>() {
        16 => cast(cast::<V, Short>(vector)),
        32 => cast(cast::<V, Long>(vector)),
        64 => cast(cast::<V, [Long; 2]>(vector)),
        _ => vector,
    }
}
