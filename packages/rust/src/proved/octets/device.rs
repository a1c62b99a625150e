// Made from crates/octets/src/device.rt by tools/erase: not to be edited.
//! Devices: an `Intake` gives bytes, an `Outlet` takes them. The engines over streams read and write through them.

/// A failure of a device.
#[derive(Clone, Copy, Debug, PartialEq, Eq)]
pub struct DeviceFault;

/// A device that gives bytes. Contracts see its count of failures and, if they are known, the bytes left.
pub trait Intake {
    /// Takes the next bytes into the beginning of `buf` and returns their number, which is 0 only at the end
    /// or for an empty `buf`. The rest of `buf` is unspecified. On a fault the bytes left are as before.
    fn take(&mut self, buf: &mut [u8]) -> Result<usize, DeviceFault>;
}

/// A device that takes bytes. Contracts see its count of failures and, if they are known, the bytes taken.
pub trait Outlet {
    /// Gives a prefix of `bytes` to the device and returns its length, which is 0 only for empty `bytes`. On a fault nothing is
    /// given.
    fn give(&mut self, bytes: &[u8]) -> Result<usize, DeviceFault>;
}
