//! The structs of the proved calls, which are wiped when they are dropped.

#![allow(unsafe_code)]

use crate::proved::capi::key::aeadkit_key_init;
use crate::proved::capi::opener::StoredOpener;
use crate::proved::capi::sealer::StoredSealer;
use crate::proved::capi::siv::StoredSiv;
use crate::proved::capi::stored_key::{KeyNumbers, StoredKey};
use core::mem::MaybeUninit;
use core::ops::{Deref, DerefMut};
use core::sync::atomic::{Ordering, compiler_fence};

/// A struct of integers alone.
///
/// # Safety
///
/// Any bytes are a value of the struct, and it stands at multiples of 8.
pub unsafe trait Numbers: Copy {}

// SAFETY: `repr(C)` structs of integers and of arrays of integers, as in the header for C, where a caller may leave any bytes in them.
unsafe impl Numbers for StoredKey {}
// SAFETY: as above.
unsafe impl Numbers for StoredSealer {}
// SAFETY: as above.
unsafe impl Numbers for StoredOpener {}
// SAFETY: as above.
unsafe impl Numbers for StoredSiv {}

/// A struct that is overwritten with zeros when it is dropped, also where the compiler sees that nothing reads them.
#[derive(Clone)]
pub struct Wiped<T: Numbers>(T);

impl<T: Numbers> Wiped<T> {
    /// Nothing is kept or begun in zeros.
    pub fn zeros() -> Wiped<T> {
        // SAFETY: any bytes are a value.
        Wiped(unsafe { MaybeUninit::zeroed().assume_init() })
    }
}

impl Wiped<StoredKey> {
    /// Puts a key of a suite into the struct. Returns the status.
    pub fn init(&mut self, suite: u32, key: &[u8]) -> u32 {
        const { assert!(size_of::<StoredKey>() == size_of::<KeyNumbers>()) };
        // SAFETY: `StoredKey` is `repr(C)` and has one field, its `KeyNumbers`.
        let numbers = unsafe { &mut *(&raw mut self.0).cast::<KeyNumbers>() };
        aeadkit_key_init(numbers, suite, key)
    }
}

impl<T: Numbers> Deref for Wiped<T> {
    type Target = T;

    fn deref(&self) -> &T {
        &self.0
    }
}

impl<T: Numbers> DerefMut for Wiped<T> {
    fn deref_mut(&mut self) -> &mut T {
        &mut self.0
    }
}

impl<T: Numbers> Drop for Wiped<T> {
    fn drop(&mut self) {
        const { assert!(align_of::<T>() == 8 && size_of::<T>().is_multiple_of(8)) };
        let words = (&raw mut self.0).cast::<u64>();
        for i in 0..size_of::<T>() / 8 {
            // SAFETY: the word is one of the struct's, which is borrowed for writing, and any bytes are a value.
            unsafe { words.add(i).write_volatile(0) };
        }
        compiler_fence(Ordering::SeqCst);
    }
}

#[cfg(test)]
mod tests {
    use super::*;
    use core::hint::black_box;
    use core::ptr::with_exposed_provenance;

    /// Makes a struct whose bytes are all 1, drops it at its end, and returns where it stood.
    #[inline(never)]
    fn place_of_dropped<T: Numbers>() -> usize {
        // SAFETY: any bytes are a value.
        let value = unsafe {
            let mut value = Wiped::<T>::zeros();
            (&raw mut value).write_bytes(0xff, 1);
            value
        };
        black_box(&raw const value).expose_provenance()
    }

    /// The same, so far down on the stack that what is called next does not write there.
    #[inline(never)]
    fn place_far_down<T: Numbers>() -> usize {
        let room = black_box([1_u8; 1 << 14]);
        let place = place_of_dropped::<T>();
        black_box(room);
        place
    }

    /// Whether a struct that was dropped left zeros alone. The compiler leaves out ordinary writes to what is about to die.
    fn is_wiped<T: Numbers>() -> bool {
        let words = with_exposed_provenance::<u64>(place_far_down::<T>());
        // SAFETY: no value stands there any more, so that by the rules of the language nothing could be read. The stack is mapped, and the
        // test fails if another value is found.
        (0..size_of::<T>() / 8).all(|i| unsafe { words.add(i).read_volatile() } == 0)
    }

    #[test]
    fn what_is_dropped_is_wiped() {
        assert!(is_wiped::<StoredKey>());
        assert!(is_wiped::<StoredSealer>());
        assert!(is_wiped::<StoredOpener>());
        assert!(is_wiped::<StoredSiv>());
    }
}
