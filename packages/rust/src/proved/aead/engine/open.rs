// Made from crates/aead/src/engine/open.rt by tools/erase: not to be edited.
//! The stream opener: measures, verifies and decrypts in three readings, so that no byte is given before a whole reading was
//! authenticated (RFC 8439, 2.8; SP 800-38D, 7.2; RFC 8452, 5).

use crate::proved::aead::aead::Aead;
use crate::proved::aead::any::{AnyAead, AnyOnePass, gcm_keys};
use crate::proved::aead::engine::measure::Measured;
use crate::proved::aead::engine::opening::{pass_opening, verify_reading};
use crate::proved::aead::engine::passes::Finding;
use crate::proved::aead::pieces::keys::{LentMul, MessageKeys};
use crate::proved::aead::pieces::pass_state::PassState;
use crate::proved::gf128::{Keyed128, WideMul};
use crate::proved::octets::{Fault, Intake, Nonce, Outlet};

// The first step: measures the length and the tag.
fn measure_step<I: Intake>(keys: &MessageKeys, intake: &mut I) -> Result<Measured, Fault> {
    Measured::of(intake, keys.text_limit())
}

// Returns the result for the finding of the verify reading.
fn answer_verify(finding: Finding) -> Result<(), Fault> {
    match finding {
        Finding::Sealed => Ok(()),
        Finding::Unsealed => Err(Fault::TagMismatch),
        Finding::Differs => Err(Fault::SourceChanged),
    }
}

// Returns the result for the finding of the write reading.
fn answer_write(finding: Finding) -> Result<(), Fault> {
    match finding {
        Finding::Sealed => Ok(()),
        Finding::Unsealed | Finding::Differs => Err(Fault::SourceChanged),
    }
}

// The second step: succeeds only if the reading is a valid sealing with the measured length and tag.
fn verify_step<I: Intake>(
    keys: &MessageKeys,
    state: &PassState,
    measured: &Measured,
    intake: &mut I,
) -> Result<(), Fault> {
    match verify_reading(keys, state, intake, measured) {
        Ok(finding) => answer_verify(finding),
        Err(fault) => Err(fault),
    }
}

// The third step: authenticates, decrypts and gives each piece.
fn write_step<I: Intake, O: Outlet>(
    keys: &MessageKeys,
    state: &PassState,
    measured: &Measured,
    intake: &mut I,
    outlet: &mut O,
) -> Result<(), Fault> {
    match pass_opening(keys, state, intake, measured, outlet) {
        Ok(finding) => answer_write(finding),
        Err(fault) => Err(fault),
    }
}

// Opens a sealed stream in three readings, from the keys of a message and the initial state of its pass.
fn open_over<I: Intake, J: Intake, K: Intake, O: Outlet>(
    keys: &MessageKeys,
    state: &PassState,
    measure: &mut I,
    verify: &mut J,
    write: &mut K,
    out: &mut O,
) -> Result<(), Fault> {
    let measured = match measure_step(keys, measure) {
        Ok(measured) => measured,
        Err(fault) => return Err(fault),
    };
    match verify_step(keys, state, &measured, verify) {
        Ok(()) => write_step(keys, state, &measured, write, out),
        Err(fault) => Err(fault),
    }
}

/// Opens a sealed stream in three readings: it is measured, verified as a sealing, and then decrypted, each
/// piece being given before the next one is taken. Does not allocate, and holds buffers of a fixed size.
///
/// Faults: `AadTooLong` before any reading; `TextTooLong` if the first reading has more than 16 bytes past
/// the suite's limit of a text; `TooShort` if it has fewer than 16. `SourceChanged` if the second
/// reading has another length or other last 16 bytes, then `TagMismatch` if it is not a sealing; nothing is
/// given up to here. Then `SourceChanged` if the third reading has another length or other last 16 bytes, or
/// is not a sealing. `Read` if a reading failed, `Write` if the outlet did. After `AadTooLong`, `TextTooLong`,
/// `TooShort` and `TagMismatch` the outlet is as it was. After `SourceChanged`, `Read` and `Write` it may have
/// taken a beginning of a text, which must be thrown away.
pub fn open_stream<I: Intake, J: Intake, K: Intake, O: Outlet>(
    cipher: &AnyAead,
    nonce: &Nonce,
    aad: &[u8],
    measure: &mut I,
    verify: &mut J,
    write: &mut K,
    out: &mut O,
) -> Result<(), Fault> {
    cipher.suite().check_aad(aad)?;
    match cipher {
        AnyAead::OnePass(cipher) => {
            let state = cipher.initial_state(nonce, aad);
            match cipher {
                AnyOnePass::ChaCha(_) => {
                    let keys = cipher.keys(nonce);
                    open_over(&keys, &state, measure, verify, write, out)
                }
                AnyOnePass::Gcm(cipher) => {
                    let multiplier = cipher.wide_multiplier();
                    let keys = gcm_keys(cipher, nonce, LentMul::Wide(&multiplier));
                    open_over(&keys, &state, measure, verify, write, out)
                }
            }
        }
        AnyAead::Siv(cipher) => {
            let derived = cipher.derive(nonce);
            let state = derived.initial_state(aad);
            let multiplier = WideMul::of(&derived.multiplier_key);
            let keys = derived.message_keys(nonce, LentMul::Wide(&multiplier));
            open_over(&keys, &state, measure, verify, write, out)
        }
    }
}
