// Made from crates/octets/src/memory.rt by tools/erase: not to be edited.
//! Devices over memory: an intake over a slice, and an outlet that is a vector.

use crate::kit::alloc::{Allocator, Vec};
use crate::proved::octets::device::{DeviceFault, Intake, Outlet};
use crate::proved::octets::failures::Failures;

/// Gives the bytes of a slice. Each take fills the buffer, or gives all that is left. It never fails.
pub struct SliceIntake<'a> {
    rest: &'a [u8],
}

impl<'a> SliceIntake<'a> {
    /// Makes a device with all bytes of the slice left.
    pub fn new(bytes: &'a [u8]) -> Self {
        SliceIntake { rest: bytes }
    }
}

impl<'a> Intake for SliceIntake<'a> {
    fn take(&mut self, buf: &mut [u8]) -> Result<usize, DeviceFault> {
        let n = buf.len().min(self.rest.len());
        let (front, back) = self.rest.split_at(n);
        buf[..n].copy_from_slice(front);
        self.rest = back;
        Ok(n)
    }
}

/// Appends the bytes that it is given to a vector. It fails if an allocation fails.
pub struct VecOutlet<A: Allocator> {
    bytes: Vec<u8, A>,
    failures: Failures,
}

impl<A: Allocator> VecOutlet<A> {
    /// Makes an empty outlet, with no failures yet.
    pub fn new(alloc: A) -> Self {
        VecOutlet { bytes: Vec::new(alloc), failures: Failures::none() }
    }

    /// Returns the bytes taken so far.
    pub fn bytes(&self) -> &[u8] {
        self.bytes.as_slice()
    }
}

impl<A: Allocator> Outlet for VecOutlet<A> {
    fn give(&mut self, bytes: &[u8]) -> Result<usize, DeviceFault> {
        match self.bytes.extend_from_slice(bytes) {
            Ok(()) => Ok(bytes.len()),
            Err(_) => {
                self.failures.add();
                Err(DeviceFault)
            }
        }
    }
}
