//! A reader whose buffer is allocated once.

use super::alloc::{AllocError, Allocator};
use std::alloc::Layout;
use std::io::{self, Read};

pub struct BufReader<R, A: Allocator> {
    inner: io::BufReader<R>,
    _alloc: A,
}

impl<R: Read, A: Allocator> BufReader<R, A> {
    pub fn with_capacity(alloc: A, capacity: usize, inner: R) -> io::Result<Self> {
        alloc.request(Layout::array::<u8>(capacity).map_err(|_| AllocError)?)?;
        Ok(BufReader { inner: io::BufReader::with_capacity(capacity, inner), _alloc: alloc })
    }
}

impl<R: Read, A: Allocator> Read for BufReader<R, A> {
    fn read(&mut self, bytes: &mut [u8]) -> io::Result<usize> {
        self.inner.read(bytes)
    }
}
