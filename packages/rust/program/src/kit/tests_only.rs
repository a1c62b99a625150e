//! What the tests alone take.

use super::HostRuntime;
use super::alloc::Global;

/// May end the program with a message.
pub trait Abort {}

impl Abort for HostRuntime {}

/// Has the system's allocator.
pub trait Alloc {
    type A;

    fn alloc(&self) -> Self::A;
}

impl Alloc for HostRuntime {
    type A = Global;

    fn alloc(&self) -> Global {
        Global
    }
}

pub mod bumpalo {
    use crate::kit::alloc::{AllocError, Allocator, Global};
    use std::alloc::Layout;
    use std::cell::Cell;

    /// An allocator that grants requests from a room, which grows unless there is a limit. No byte comes back to the room.
    pub struct Bump {
        size: Cell<usize>,
        left: Cell<usize>,
        is_limited: Cell<bool>,
    }

    impl Bump {
        pub fn new(alloc: Global) -> Self {
            Bump::try_with_capacity(alloc, 0).expect("an empty room")
        }

        pub fn try_with_capacity(_: Global, size: usize) -> Result<Self, AllocError> {
            Ok(Bump { size: Cell::new(size), left: Cell::new(size), is_limited: Cell::new(false) })
        }

        pub fn chunk_capacity(&self) -> usize {
            self.left.get()
        }

        pub fn set_allocation_limit(&self, limit: Option<usize>) {
            self.is_limited.set(limit.is_some())
        }
    }

    impl Allocator for Bump {
        fn request(&self, layout: Layout) -> Result<(), AllocError> {
            match self.left.get().checked_sub(layout.size()) {
                Some(left) => self.left.set(left - left % layout.align()),
                None if self.is_limited.get() => return Err(AllocError),
                None => {
                    self.size.set(layout.size().max(2 * self.size.get()));
                    self.left.set(self.size.get() - layout.size());
                }
            }
            Ok(())
        }
    }
}

pub mod rand_chacha {
    pub use ::rand_chacha::ChaCha20Rng;

    pub mod rand_core {
        pub use ::rand_chacha::rand_core::{RngCore as Rng, SeedableRng};
    }
}
