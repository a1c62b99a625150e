// Made from crates/vectors/src/lib.rt by tools/erase: not to be edited.
//! Vector files: the records that a file lists, and whether each agrees with its standard.
//!
//! From `crates/vectors/src/uses.rt`:
//! ```text
//! // Whether each record of a vector file agrees with its standard.
//! fn all_agree<A: Allocator>(alloc: A, file: &[u8]) -> Result<bool, VectorFault>
//!     ensures { IfOk result (λ yes. IsTrue yes
//!         → (count : ℕ) × ((1 ≤ count) × IsReport (lines_of file.now) count [])) }
//! {
//!     let report = check(alloc, file)?;
//!     Ok(report.yes())
//! }
//! ```

mod agree;
mod cuts;
mod digits;
mod fault;
mod field;
mod lines;
mod place;
mod reading;
mod report;
mod suite;

pub use fault::{Cause, VectorFault};
pub use reading::check;
pub use report::Report;
