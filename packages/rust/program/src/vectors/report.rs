// Made from crates/vectors/src/report.rt by tools/erase: not to be edited.
//! The report of a vector file: how many records it has, and which of them disagree.

use crate::kit::alloc::{AllocError, Allocator, Vec};
use crate::vectors::agree::agrees;
use crate::vectors::place::Entry;

/// The report of a vector file: how many records it has, and the numbers of those that disagree with their standard, in rising
/// order. Records are numbered from 1.
pub struct Report<A: Allocator> {
    /// The number of records.
    pub records: u64,
    /// The numbers of the records that disagree.
    pub bad: Vec<u64, A>,
}

impl<A: Allocator> Report<A> {
    // Counts one more record, and notes its number if it disagrees.
    pub(in crate::vectors) fn judge(&mut self, entry: &Entry<'_>) -> Result<(), AllocError> {
        let agrees = agrees(self.bad.allocator(), entry)?;
        self.count(agrees)
    }

    // Counts one more record, which agrees or disagrees.
    fn count(&mut self, agrees: bool) -> Result<(), AllocError> {
        let number = self.records + 1;
        if !agrees {
            self.bad.push(number)?;
        }
        self.records = number;
        Ok(())
    }

    /// Whether there is at least one record, and each agrees with its standard.
    pub fn yes(&self) -> bool {
        self.records >= 1 && self.bad.is_empty()
    }
}
