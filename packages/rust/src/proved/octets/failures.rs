// Made from crates/octets/src/failures.rt by tools/erase: not to be edited.
//! Counts the failures of a device, so that a contract can say that a fault came from a failure during this call.
//!
//! A device of your own has a field of type `Failures`, which begins as `Failures::none()`. It calls `add` at each failure, and
//! names the field as its count: `ghost failures = { λ device. device.failures };`. A call that succeeds leaves the count as it
//! is. This is all that the `count` clauses of `Intake` and `Outlet` ask for.

/// The number of failures of a device, up to 2^64 - 1. Contracts see it as a number.
#[derive(Clone, Copy, Debug, PartialEq, Eq)]
pub struct Failures {
    count: u64,
}

impl Failures {
    /// Makes a count of no failures.
    pub fn none() -> Failures {
        Failures { count: 0 }
    }

    /// Counts one more failure. The count stays at 2^64 - 1 once it is there.
    pub fn add(&mut self) {
        self.count = self.count.saturating_add(1);
    }
}
