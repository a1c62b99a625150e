// Made from crates/aead/src/engine/seal_siv.rt by tools/erase: not to be edited.
//! The engine that seals a stream in two readings, under AES-GCM-SIV (RFC 8452, 4): the tag of the first begins the mask of the
//! second.

use crate::proved::aead::aead::Aead;
use crate::proved::aead::engine::passes::{Discard, pass_all};
use crate::proved::aead::engine::stage::{Masking, Reading};
use crate::proved::aead::gcm_siv::GcmSiv;
use crate::proved::aead::pieces::keys::{LentMul, MessageKeys};
use crate::proved::aead::pieces::pass_state::PassState;
use crate::proved::aead::pieces::two_pass_state::repeats;
use crate::proved::aead::step::Order;
use crate::proved::gf128::{Keyed128, WideMul};
use crate::proved::octets::{Fault, Intake, Nonce, Outlet, Tag, give_all};

// Encrypts a second reading and gives it, and then gives the tag if the reading repeats the first one.
fn write_again<J: Intake, O: Outlet>(
    keys: &MessageKeys,
    state: &PassState,
    first_length: u64,
    tag: &Tag,
    intake: &mut J,
    outlet: &mut O,
) -> Result<(), Fault> {
    let mut again = Masking { keys, state: *state, order: Order::HashFirst, tag: *tag.bytes() };
    match pass_all(intake, &mut again, first_length, outlet) {
        Ok(Some(_)) => {
            if repeats(keys, &again.state, first_length, tag.bytes()) {
                match give_all(outlet, tag.bytes()) {
                    Ok(()) => Ok(()),
                    Err(_) => Err(Fault::Write),
                }
            } else {
                Err(Fault::SourceChanged)
            }
        }
        Ok(None) => Err(Fault::SourceChanged),
        Err(fault) => Err(fault),
    }
}

// Seals a stream in two readings, from the keys of a message and the initial state of both passes.
fn seal_in_two<I: Intake, J: Intake, O: Outlet>(
    keys: &MessageKeys,
    state: &PassState,
    first: &mut I,
    second: &mut J,
    out: &mut O,
) -> Result<(), Fault> {
    let mut reading = Reading { keys, state: *state };
    match pass_all(first, &mut reading, keys.text_limit(), &mut Discard) {
        Ok(Some(first_length)) => {
            let tag = keys.tag(&reading.state);
            write_again(keys, state, first_length, &tag, second, out)
        }
        Ok(None) => Err(Fault::TextTooLong),
        Err(_) => Err(Fault::Read),
    }
}

/// Seals a stream in two readings under AES-GCM-SIV: the first is authenticated, and of the second each
/// piece is encrypted and given before the next one is taken; the tag is given last, once the second
/// reading has shown the length and the tag of the first. Does not allocate, and holds buffers of a
/// fixed size.
///
/// Faults: `AadTooLong` before any reading, `TextTooLong` once the text is longer than the suite's limit;
/// both leave the outlet as it was. `SourceChanged` if the second reading has another length or tag,
/// `Read` if a reading failed, `Write` if the outlet did. After these three the outlet may have taken some
/// bytes, which must be thrown away.
///
/// The nonce must never be used twice under one key: a repeat gives away whether the texts and the associated data
/// were the same, and nothing else.
pub fn seal_siv_stream<I: Intake, J: Intake, O: Outlet>(
    cipher: &GcmSiv,
    nonce: &Nonce,
    aad: &[u8],
    first: &mut I,
    second: &mut J,
    out: &mut O,
) -> Result<(), Fault> {
    cipher.suite().check_aad(aad)?;
    let derived = cipher.derive(nonce);
    let state = derived.initial_state(aad);
    let multiplier = WideMul::of(&derived.multiplier_key);
    let keys = derived.message_keys(nonce, LentMul::Wide(&multiplier));
    seal_in_two(&keys, &state, first, second, out)
}
