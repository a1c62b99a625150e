// Made from crates/aead/src/engine/seal.rt by tools/erase: not to be edited.
//! The engine that seals a stream in one reading, under ChaCha20-Poly1305 (RFC 8439, 2.8) and AES-GCM (SP 800-38D, 7.1).

use crate::proved::aead::aead::Aead;
use crate::proved::aead::any::{AnyOnePass, gcm_keys};
use crate::proved::aead::engine::passes::pass_all;
use crate::proved::aead::engine::stage::Masking;
use crate::proved::aead::pieces::keys::{LentMul, MessageKeys};
use crate::proved::aead::pieces::pass_state::PassState;
use crate::proved::aead::step::Order;
use crate::proved::octets::{Fault, Intake, Nonce, Outlet, give_all};

// Seals a stream in one reading, from the keys of a message and the initial state of its pass.
fn seal_over<I: Intake, O: Outlet>(
    keys: &MessageKeys,
    state: &PassState,
    text: &mut I,
    out: &mut O,
) -> Result<(), Fault> {
    let mut sealing = Masking { keys, state: *state, order: Order::MaskFirst, tag: [0; 16] };
    match pass_all(text, &mut sealing, keys.text_limit(), out) {
        Ok(Some(_)) => match give_all(out, keys.tag(&sealing.state).bytes()) {
            Ok(()) => Ok(()),
            Err(_) => Err(Fault::Write),
        },
        Ok(None) => Err(Fault::TextTooLong),
        Err(fault) => Err(fault),
    }
}

/// Seals a stream in one reading: each piece is encrypted and given before the next one is taken, and the
/// tag is given last. Does not allocate, and holds a buffer of a fixed size.
///
/// Faults: `AadTooLong` before any reading, which leaves the outlet as it was; `TextTooLong` once the text is
/// longer than the suite's limit, `Read` if the reading failed, `Write` if the outlet did. After these three
/// the outlet may have taken a beginning of ciphertext and tag, which must be thrown away.
///
/// The nonce must never be used twice under one key: a repeat gives away the XOR of the two texts, and enough to
/// forge messages.
pub fn seal_stream<I: Intake, O: Outlet>(
    cipher: &AnyOnePass,
    nonce: &Nonce,
    aad: &[u8],
    text: &mut I,
    out: &mut O,
) -> Result<(), Fault> {
    cipher.suite().check_aad(aad)?;
    let state = cipher.initial_state(nonce, aad);
    match cipher {
        AnyOnePass::ChaCha(_) => seal_over(&cipher.keys(nonce), &state, text, out),
        AnyOnePass::Gcm(cipher) => {
            let multiplier = cipher.wide_multiplier();
            let keys = gcm_keys(cipher, nonce, LentMul::Wide(&multiplier));
            seal_over(&keys, &state, text, out)
        }
    }
}
