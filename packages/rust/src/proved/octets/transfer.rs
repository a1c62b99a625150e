// Made from crates/octets/src/transfer.rt by tools/erase: not to be edited.
//! Loops over a device that fill a buffer or give a whole slice.

use crate::proved::octets::device::{DeviceFault, Intake, Outlet};

/// Takes until the buffer is full or the device is at its end, and returns the number of bytes taken.
pub fn fill<I: Intake>(intake: &mut I, buf: &mut [u8]) -> Result<usize, DeviceFault> {
    let mut at = 0;
    while at < buf.len() {
        let n = intake.take(&mut buf[at..])?;
        if n == 0 {
            return Ok(at);
        }
        at += n;
    }
    Ok(at)
}

/// Gives all the bytes. On a fault, a prefix of them was given.
pub fn give_all<O: Outlet>(outlet: &mut O, bytes: &[u8]) -> Result<(), DeviceFault> {
    let mut at = 0;
    while at < bytes.len() {
        at += outlet.give(&bytes[at..])?;
    }
    Ok(())
}
