// Made from crates/octets/src/script.rt by tools/erase: not to be edited.
//! Devices that follow a script, for tests: each step gives or takes a part, or fails.

use crate::kit::alloc::{Allocator, Vec};
use crate::proved::octets::device::{DeviceFault, Intake, Outlet};
use crate::proved::octets::failures::Failures;
use crate::proved::octets::memory::VecOutlet;

/// The behaviour of a device in one call.
#[derive(Clone, Copy)]
pub enum Step {
    /// Moves at most this many bytes; 0 counts as 1.
    Give(usize),
    /// Fails.
    Fail,
}

/// Gives bytes as a script says. After the end of the script each take fills the buffer, or gives all that is left.
pub struct ScriptIntake<A: Allocator> {
    bytes: Vec<u8, A>,
    at: usize,
    steps: Vec<Step, A>,
    call: usize,
    failures: Failures,
}

impl<A: Allocator> ScriptIntake<A> {
    /// Makes a device with all bytes left, at the first step of the script, with no failures yet.
    pub fn new(bytes: Vec<u8, A>, steps: Vec<Step, A>) -> Self {
        ScriptIntake { bytes, at: 0, steps, call: 0, failures: Failures::none() }
    }
}

// Returns how many bytes this call may move, or `None` if it fails.
fn allowed(steps: &[Step], call: &mut usize, wanted: usize) -> Option<usize> {
    if *call >= steps.len() {
        return Some(wanted);
    }
    let step = steps[*call];
    *call += 1;
    match step {
        Step::Give(most) => Some(wanted.min(most.max(1))),
        Step::Fail => None,
    }
}

impl<A: Allocator> Intake for ScriptIntake<A> {
    fn take(&mut self, buf: &mut [u8]) -> Result<usize, DeviceFault> {
        let rest = &self.bytes.as_slice()[self.at..];
        let wanted = buf.len().min(rest.len());
        match allowed(self.steps.as_slice(), &mut self.call, wanted) {
            Some(n) => {
                let (front, _) = rest.split_at(n);
                buf[..n].copy_from_slice(front);
                self.at += n;
                Ok(n)
            }
            None => {
                self.failures.add();
                Err(DeviceFault)
            }
        }
    }
}

/// Takes bytes as a script says. After the end of the script it takes all that it is given.
pub struct ScriptOutlet<A: Allocator> {
    outlet: VecOutlet<A>,
    steps: Vec<Step, A>,
    call: usize,
    failures: Failures,
}

impl<A: Allocator> ScriptOutlet<A> {
    /// Makes an empty outlet, at the first step of the script, with no failures yet.
    pub fn new(alloc: A, steps: Vec<Step, A>) -> Self {
        ScriptOutlet { outlet: VecOutlet::new(alloc), steps, call: 0, failures: Failures::none() }
    }

    /// Returns the bytes taken so far.
    pub fn bytes(&self) -> &[u8] {
        self.outlet.bytes()
    }
}

impl<A: Allocator> Outlet for ScriptOutlet<A> {
    fn give(&mut self, bytes: &[u8]) -> Result<usize, DeviceFault> {
        if let Some(n) = allowed(self.steps.as_slice(), &mut self.call, bytes.len()) {
            if let Ok(count) = self.outlet.give(&bytes[..n]) {
                return Ok(count);
            }
        }
        self.failures.add();
        Err(DeviceFault)
    }
}
