//! Vectors whose allocations can fail, and allocators that can refuse one. Without the feature `alloc` each allocation fails, so that
//! the proved source is the same with it and without it.

use core::alloc::Layout;
use core::fmt;
use core::ops::{Deref, DerefMut};

#[cfg(feature = "alloc")]
use alloc::vec::Vec as List;
#[cfg(not(feature = "alloc"))]
use no_memory::List;

/// An allocation failed.
#[derive(Clone, Copy, Debug, PartialEq, Eq)]
pub struct AllocError;

impl fmt::Display for AllocError {
    fn fmt(&self, f: &mut fmt::Formatter<'_>) -> fmt::Result {
        f.write_str("memory allocation failed")
    }
}

impl core::error::Error for AllocError {}

#[cfg(feature = "internals")]
impl From<AllocError> for std::io::Error {
    fn from(_: AllocError) -> Self {
        std::io::ErrorKind::OutOfMemory.into()
    }
}

/// Grants or refuses each request for memory. The memory itself is the global allocator's.
pub trait Allocator {
    /// # Errors
    ///
    /// The request is refused.
    fn request(&self, layout: Layout) -> Result<(), AllocError>;
}

impl<A: Allocator + ?Sized> Allocator for &A {
    fn request(&self, layout: Layout) -> Result<(), AllocError> {
        (**self).request(layout)
    }
}

/// Grants all.
#[derive(Clone, Copy, Debug)]
pub struct Global;

impl Allocator for Global {
    fn request(&self, _: Layout) -> Result<(), AllocError> {
        Ok(())
    }
}

/// A vector. Each call that allocates says if it failed, and then leaves the vector as it was.
pub struct Vec<T, A: Allocator = Global> {
    list: List<T>,
    allocator: A,
}

impl<T, A: Allocator> Vec<T, A> {
    /// Allocates nothing.
    pub fn new(allocator: A) -> Self {
        Vec { list: List::new(), allocator }
    }

    pub fn with_capacity(allocator: A, capacity: usize) -> Result<Self, AllocError> {
        let mut vector = Vec::new(allocator);
        vector.enlarge(capacity)?;
        Ok(vector)
    }

    // Makes room for this many items in all, and no more.
    fn enlarge(&mut self, capacity: usize) -> Result<(), AllocError> {
        if capacity <= self.list.capacity() {
            return Ok(());
        }
        self.allocator.request(Layout::array::<T>(capacity).map_err(|_| AllocError)?)?;
        self.list.try_reserve_exact(capacity - self.list.len()).map_err(|_| AllocError)
    }

    // Makes room for this many more items. It grows by doubling, so that a vector that grows by items is copied seldom.
    fn make_room(&mut self, more: usize) -> Result<(), AllocError> {
        let (needed, capacity) = (self.list.len().checked_add(more).ok_or(AllocError)?, self.list.capacity());
        if needed <= capacity {
            return Ok(());
        }
        self.enlarge(needed.max(capacity.saturating_mul(2)).max(8))
    }

    pub fn push(&mut self, item: T) -> Result<(), AllocError> {
        self.make_room(1)?;
        self.list.push(item);
        Ok(())
    }

    /// Keeps at most the first `length` items.
    pub fn truncate(&mut self, length: usize) {
        self.list.truncate(length);
    }

    /// Removes all items, and keeps the room.
    pub fn clear(&mut self) {
        self.list.clear();
    }

    pub fn capacity(&self) -> usize {
        self.list.capacity()
    }

    pub fn allocator(&self) -> &A {
        &self.allocator
    }

    pub fn as_slice(&self) -> &[T] {
        &self.list
    }

    pub fn as_mut_slice(&mut self) -> &mut [T] {
        &mut self.list
    }
}

impl<T: Clone, A: Allocator> Vec<T, A> {
    /// A vector of `count` clones of an item.
    pub fn filled(allocator: A, item: T, count: usize) -> Result<Self, AllocError> {
        let mut vector = Vec::new(allocator);
        vector.resize(count, item)?;
        Ok(vector)
    }

    /// Keeps the first `length` items, or adds clones of an item.
    pub fn resize(&mut self, length: usize, item: T) -> Result<(), AllocError> {
        self.enlarge(length)?;
        self.list.resize(length, item);
        Ok(())
    }

    pub fn from_slice(allocator: A, items: &[T]) -> Result<Self, AllocError> {
        let mut vector = Vec::with_capacity(allocator, items.len())?;
        vector.list.extend_from_slice(items);
        Ok(vector)
    }

    pub fn extend_from_slice(&mut self, items: &[T]) -> Result<(), AllocError> {
        self.make_room(items.len())?;
        self.list.extend_from_slice(items);
        Ok(())
    }
}

impl<T, A: Allocator> Deref for Vec<T, A> {
    type Target = [T];

    fn deref(&self) -> &[T] {
        &self.list
    }
}

impl<T, A: Allocator> DerefMut for Vec<T, A> {
    fn deref_mut(&mut self) -> &mut [T] {
        &mut self.list
    }
}

impl<'a, T, A: Allocator> IntoIterator for &'a Vec<T, A> {
    type Item = &'a T;
    type IntoIter = core::slice::Iter<'a, T>;

    fn into_iter(self) -> Self::IntoIter {
        self.list.iter()
    }
}

impl<T, A: Allocator> AsRef<[T]> for Vec<T, A> {
    fn as_ref(&self) -> &[T] {
        &self.list
    }
}

impl<T: fmt::Debug, A: Allocator> fmt::Debug for Vec<T, A> {
    fn fmt(&self, f: &mut fmt::Formatter<'_>) -> fmt::Result {
        self.as_slice().fmt(f)
    }
}

#[cfg(feature = "internals")]
impl<A: Allocator> std::io::Write for Vec<u8, A> {
    fn write(&mut self, bytes: &[u8]) -> std::io::Result<usize> {
        self.extend_from_slice(bytes)?;
        Ok(bytes.len())
    }

    fn flush(&mut self) -> std::io::Result<()> {
        Ok(())
    }
}

#[cfg(not(feature = "alloc"))]
mod no_memory {
    use super::AllocError;
    use core::ops::{Deref, DerefMut};

    /// A list that stays empty, since it never gets room.
    pub struct List<T>([T; 0]);

    impl<T> List<T> {
        pub fn new() -> Self {
            List([])
        }

        pub fn capacity(&self) -> usize {
            0
        }

        pub fn try_reserve_exact(&mut self, _: usize) -> Result<(), AllocError> {
            Err(AllocError)
        }

        pub fn push(&mut self, _: T) {
            unreachable!("there is no room");
        }

        pub fn extend_from_slice(&mut self, items: &[T]) {
            assert!(items.is_empty());
        }

        pub fn resize(&mut self, length: usize, _: T) {
            assert!(length == 0);
        }

        pub fn truncate(&mut self, _: usize) {}

        pub fn clear(&mut self) {}
    }

    impl<T> Deref for List<T> {
        type Target = [T];

        fn deref(&self) -> &[T] {
            &self.0
        }
    }

    impl<T> DerefMut for List<T> {
        fn deref_mut(&mut self) -> &mut [T] {
            &mut self.0
        }
    }
}

#[cfg(test)]
mod tests {
    use super::*;
    use core::cell::Cell;

    /// Grants so many bytes, and then no more.
    struct Budget(Cell<usize>);

    impl Allocator for Budget {
        fn request(&self, layout: Layout) -> Result<(), AllocError> {
            self.0.set(self.0.get().checked_sub(layout.size()).ok_or(AllocError)?);
            Ok(())
        }
    }

    #[cfg(feature = "alloc")]
    #[test]
    fn what_is_refused_changes_nothing() {
        let budget = Budget(Cell::new(24));
        let mut vector = Vec::from_slice(&budget, &[1u8, 2, 3]).unwrap();
        assert_eq!((vector.capacity(), budget.0.get()), (3, 21));
        vector.push(4).unwrap();
        assert_eq!((&vector[..], vector.capacity(), budget.0.get()), (&[1, 2, 3, 4][..], 8, 13));
        vector.resize(8, 5).unwrap();
        assert_eq!(budget.0.get(), 13);
        assert_eq!(
            (vector.push(6), vector.extend_from_slice(&[6; 2]), vector.resize(22, 6)),
            (Err(AllocError), Err(AllocError), Err(AllocError))
        );
        assert_eq!(vector.as_slice(), [1, 2, 3, 4, 5, 5, 5, 5]);
        vector.truncate(2);
        vector.extend_from_slice(&[7; 6]).unwrap();
        assert_eq!(vector.as_mut_slice(), [1, 2, 7, 7, 7, 7, 7, 7]);
        vector.clear();
        assert_eq!((vector.len(), vector.capacity()), (0, 8));
        assert!(Vec::filled(&budget, 0u32, 4).is_err());
        assert_eq!(Vec::filled(&budget, 1u32, 3).unwrap().as_slice(), [1; 3]);
        assert!(Vec::<u64, _>::with_capacity(Global, usize::MAX).is_err());
    }

    #[cfg(not(feature = "alloc"))]
    #[test]
    fn each_allocation_fails() {
        let mut vector = Vec::new(Budget(Cell::new(100)));
        assert_eq!(
            (vector.push(1u8), vector.extend_from_slice(&[1]), vector.resize(1, 1)),
            (Err(AllocError), Err(AllocError), Err(AllocError))
        );
        vector.extend_from_slice(&[]).unwrap();
        vector.resize(0, 1).unwrap();
        assert!(vector.is_empty());
        assert!(Vec::from_slice(Global, &[1]).is_err());
        assert!(Vec::with_capacity(Global, 1).map(|vector: Vec<u8>| vector.len()).is_err());
    }
}
