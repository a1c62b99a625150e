//! The same bytes as a value of another type.

#![allow(unsafe_code)]

use super::{Lane, Simd};
use core::mem::transmute_copy;

/// An integer, or integers in a row: in an array, a vector or a register.
///
/// # Safety
///
/// Any bytes are a value of the type, and each byte of a value is initialized.
pub unsafe trait Plain: Copy {}

macro_rules! plain {
    ($($name:ty)*) => {$(
        // SAFETY: an integer.
        unsafe impl Plain for $name {}
    )*};
}
plain! { u8 u32 u64 }

// SAFETY: nothing stands between the elements of an array.
unsafe impl<E: Plain, const N: usize> Plain for [E; N] {}
// SAFETY: a vector is `repr(transparent)` over an array.
unsafe impl<T: Lane, const N: usize> Plain for Simd<T, N> {}

/// The same bytes as another type of the same size. Where the sizes differ it panics, which is known when it is compiled.
#[inline(always)]
pub fn cast<A: Plain, B: Plain>(a: A) -> B {
    assert!(size_of::<A>() == size_of::<B>());
    // SAFETY: the sizes are equal, each byte of `a` is initialized, and any bytes are a value of `B`.
    unsafe { transmute_copy(&a) }
}
