// Made from crates/vectors/src/reading.rt by tools/erase: not to be edited.
//! A vector file, read once from its first byte to its last.

use crate::kit::alloc::{Allocator, Vec};
use crate::vectors::fault::VectorFault;
use crate::vectors::lines::first_line;
use crate::vectors::place::{Next, Place, step};
use crate::vectors::report::Report;

// Reads a vector file and judges each record as it ends.
fn read<A: Allocator>(alloc: A, file: &[u8]) -> Result<Report<A>, VectorFault> {
    let mut report = Report { records: 0, bad: Vec::new(alloc) };
    let mut place = Place::Start;
    let mut count = 0u64;
    let mut rest = file;
    while let Some((line, behind)) = first_line(rest) {
        count += 1;
        rest = behind;
        match step(place, line) {
            Err(cause) => return Err(VectorFault::AtLine(count, cause)),
            Ok(Next { place: next, ended: None }) => place = next,
            Ok(Next { place: next, ended: Some(entry) }) => {
                report.judge(&entry)?;
                place = next;
            }
        }
    }
    match place {
        Place::Start => Err(VectorFault::NoRecords),
        Place::Between(_) => {
            if report.records == 0 {
                Err(VectorFault::NoRecords)
            } else {
                Ok(report)
            }
        }
        _ => Err(VectorFault::Unfinished(count)),
    }
}

/// Returns the report of a vector file of format 1 or 2: how many records it has, and which of them disagree
/// with their standard. The file may be any bytes, and is read once. If it does not follow the grammar, returns its
/// first fault: the line with the least number such that the lines up to it cannot begin a file.
/// `OutOfMemory` comes only if a record has ended and an allocation failed in this call. Memory is allocated
/// for the sealed bytes and the associated data of one record at a time, while it is judged, and for the
/// numbers in the report.
pub fn check<A: Allocator>(alloc: A, file: &[u8]) -> Result<Report<A>, VectorFault> {
    read(alloc, file)
}
