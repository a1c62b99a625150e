// Made from crates/aead/src/engine/opening.rt by tools/erase: not to be edited.
//! The second and the third reading of the stream opener: a whole reading of a sealing, which is authenticated as it goes.

use crate::proved::aead::engine::measure::Measured;
use crate::proved::aead::engine::passes::{Discard, Finding, finding_of, pass_body};
use crate::proved::aead::engine::stage::{Masking, Reading};
use crate::proved::aead::pieces::keys::{CipherKeys, MessageKeys};
use crate::proved::aead::pieces::pass_state::PassState;
use crate::proved::octets::{Fault, Intake, Outlet};

// Decrypts and authenticates the body of a reading and gives it to the outlet, and then compares what is left with the measured tag
// and the end. `Ok` alone is no valid sealing: the finding says what was found.
pub(in crate::proved::aead) fn pass_opening<I: Intake, O: Outlet>(
    keys: &MessageKeys,
    state: &PassState,
    intake: &mut I,
    measured: &Measured,
    outlet: &mut O,
) -> Result<Finding, Fault> {
    let mut opening = Masking { keys, state: *state, order: keys.order_of_opening(), tag: *measured.tag.bytes() };
    match pass_body(intake, &mut opening, measured.length - 16, outlet) {
        Ok(n) => finding_of(intake, measured, n, keys.tag(&opening.state)),
        Err(fault) => Err(fault),
    }
}

// Authenticates a whole reading without decrypting it.
fn pass_sealed<I: Intake>(
    keys: &MessageKeys,
    state: &PassState,
    intake: &mut I,
    measured: &Measured,
) -> Result<Finding, Fault> {
    let mut reading = Reading { keys, state: *state };
    match pass_body(intake, &mut reading, measured.length - 16, &mut Discard) {
        Ok(n) => finding_of(intake, measured, n, keys.tag(&reading.state)),
        Err(_) => Err(Fault::Read),
    }
}

// Authenticates a whole reading and gives nothing. It is decrypted only under AES-GCM-SIV, whose tag is over the text.
pub(in crate::proved::aead) fn verify_reading<I: Intake>(
    keys: &MessageKeys,
    state: &PassState,
    intake: &mut I,
    measured: &Measured,
) -> Result<Finding, Fault> {
    match keys.cipher {
        CipherKeys::ChaCha(_) | CipherKeys::Gcm(_) => pass_sealed(keys, state, intake, measured),
        CipherKeys::Siv(_) => match pass_opening(keys, state, intake, measured, &mut Discard) {
            Ok(finding) => Ok(finding),
            Err(_) => Err(Fault::Read),
        },
    }
}
