// Made from crates/aead/src/engine/passes.rt by tools/erase: not to be edited.
//! One pass over a reading, piece by piece: a stage takes in each piece, which is given before the next one is taken. To
//! measure, to verify and to write differ in their stage and their outlet.

use crate::proved::aead::engine::measure::Measured;
use crate::proved::aead::engine::stage::Stage;
use crate::proved::octets::{DeviceFault, Fault, Intake, Outlet, Tag, fill, give_all, same};

// An outlet that drops every byte, and never fails.
pub(in crate::proved::aead) struct Discard;

impl Outlet for Discard {
    #[inline(always)]
    fn give(&mut self, bytes: &[u8]) -> Result<usize, DeviceFault> {
        Ok(bytes.len())
    }
}

// How a reading compares with the measured one.
pub(in crate::proved::aead) enum Finding {
    // Its length or its last 16 bytes are not those that were measured.
    Differs,
    // Its length and its last 16 bytes are those that were measured, and authentication failed.
    Unsealed,
    // It is a valid sealing with the measured length and last 16 bytes.
    Sealed,
}

// Passes one piece: fills the buffer as far as the reading goes, and gives the bytes as the stage has left them.
fn pass_piece<I: Intake, S: Stage, O: Outlet>(
    intake: &mut I,
    stage: &mut S,
    buf: &mut [u8],
    outlet: &mut O,
) -> Result<usize, Fault> {
    let n = match fill(intake, buf) {
        Ok(n) => n,
        Err(_) => return Err(Fault::Read),
    };
    let piece = &mut buf[..n];
    stage.take_in(piece);
    match give_all(outlet, piece) {
        Ok(()) => Ok(n),
        Err(_) => Err(Fault::Write),
    }
}

// Passes at most `length` bytes, and returns how many came.
pub(in crate::proved::aead) fn pass_body<I: Intake, S: Stage, O: Outlet>(
    intake: &mut I,
    stage: &mut S,
    length: u64,
    outlet: &mut O,
) -> Result<u64, Fault> {
    let mut buf = [0; 4096];
    let mut done = 0;
    while done < length {
        let want = (length - done).min(4096) as usize;
        let n = pass_piece(intake, stage, &mut buf[..want], outlet)?;
        done += n as u64;
        if n < want {
            return Ok(done);
        }
    }
    Ok(done)
}

// Returns whether what is left of a reading is this tag and nothing more.
fn ends_with<I: Intake>(intake: &mut I, tag: &Tag) -> Result<bool, Fault> {
    let mut last = [0; 17];
    match fill(intake, &mut last) {
        Ok(n) => Ok(last[..n] == tag.bytes()[..]),
        Err(_) => Err(Fault::Read),
    }
}

// Returns how a reading compares with the measured one, after `came` bytes of its body, whose tag is `computed`: what is left
// must be the measured tag and nothing more.
pub(in crate::proved::aead) fn finding_of<I: Intake>(
    intake: &mut I,
    measured: &Measured,
    came: u64,
    computed: Tag,
) -> Result<Finding, Fault> {
    if came < measured.length - 16 {
        return Ok(Finding::Differs);
    }
    match ends_with(intake, &measured.tag) {
        Ok(true) => {
            if same(computed.bytes(), measured.tag.bytes()) {
                Ok(Finding::Sealed)
            } else {
                Ok(Finding::Unsealed)
            }
        }
        Ok(false) => Ok(Finding::Differs),
        Err(fault) => Err(fault),
    }
}

// Returns whether anything is left of a reading.
pub(in crate::proved::aead) fn has_more<I: Intake>(intake: &mut I) -> Result<bool, Fault> {
    let mut next = [0; 1];
    match fill(intake, &mut next) {
        Ok(n) => Ok(n > 0),
        Err(_) => Err(Fault::Read),
    }
}

// Passes a reading to its end, and returns its length. If it is longer than `length` bytes, only the first `length` are passed,
// and the result is `None`.
pub(in crate::proved::aead) fn pass_all<I: Intake, S: Stage, O: Outlet>(
    intake: &mut I,
    stage: &mut S,
    length: u64,
    outlet: &mut O,
) -> Result<Option<u64>, Fault> {
    let n = match pass_body(intake, stage, length, outlet) {
        Ok(n) => n,
        Err(fault) => return Err(fault),
    };
    if n < length {
        return Ok(Some(n));
    }
    match has_more(intake) {
        Ok(true) => Ok(None),
        Ok(false) => Ok(Some(n)),
        Err(fault) => Err(fault),
    }
}
