// Made from crates/command/src/readings.rt by tools/erase: not to be edited.
//! Readings of a file.

use crate::command::failure::fault_of;
use crate::command::storage::Storage;
use crate::kit::alloc::{Allocator, Vec};
use aeadkit::internals::octets::{Fault, Intake, fill};

// How many bytes are taken at a time when a whole file is read.
const CHUNK: usize = 65536;

// Opens a file for a reading. `Read` if it can't be opened, `OutOfMemory` if an allocation fails.
pub(in crate::command) fn reading<F: Storage>(files: &F, path: &str, reading: u8) -> Result<F::Input, Fault> {
    match files.open(path, reading) {
        Ok(input) => Ok(input),
        Err(error) => Err(fault_of(&error, Fault::Read)),
    }
}

// Takes a chunk and appends it to the bytes taken so far. Returns whether it was the last.
fn take_chunk<A: Allocator, I: Intake>(input: &mut I, chunk: &mut [u8], bytes: &mut Vec<u8, A>) -> Result<bool, Fault> {
    let n = match fill(input, chunk) {
        Ok(n) => n,
        Err(_) => return Err(Fault::Read),
    };
    bytes.extend_from_slice(&chunk[..n])?;
    Ok(n < chunk.len())
}

// Takes all bytes that are left. `Read` if the device fails, `OutOfMemory` if an allocation fails. No vector holds 2^64 chunks,
// so the loop always returns before its end.
fn take_all<'a, A: Allocator, I: Intake>(alloc: &'a A, input: &mut I) -> Result<Vec<u8, &'a A>, Fault> {
    let mut chunk = vec![in alloc; 0; CHUNK]?;
    let mut bytes = Vec::new(alloc);
    for _ in 0..u64::MAX {
        let is_last = take_chunk(input, &mut chunk, &mut bytes)?;
        if is_last {
            return Ok(bytes);
        }
    }
    Err(Fault::OutOfMemory)
}

// Returns the bytes of a file. `Read` if it can't be opened or read, `OutOfMemory` if an allocation fails.
pub(in crate::command) fn file_bytes<'a, A: Allocator, F: Storage>(
    alloc: &'a A,
    files: &F,
    path: &str,
) -> Result<Vec<u8, &'a A>, Fault> {
    let mut input = reading(files, path, 0)?;
    match take_all(alloc, &mut input) {
        Ok(bytes) => Ok(bytes),
        Err(fault) => Err(fault),
    }
}
