// Made from crates/aead/src/pieces/text_parts.rt by tools/erase: not to be edited.
//! Authenticates the text of a ciphertext under AES-GCM-SIV in a pass that returns no text: it is decrypted part by part in a
//! buffer.

use crate::proved::aead::authenticator::Authenticator;
use crate::proved::aead::hashes::TagHash;
use crate::proved::aead::step::{MaskWith, Order, step};

// The length of the buffer in bytes. It is on the stack with the planes and the tables that serve all parts, and the header for C says
// how much stack a call takes at most.
pub(in crate::proved::aead) const PART: usize = 1024;

// Authenticates the text of a part of a ciphertext.
fn take_part<S: MaskWith<H>, H: TagHash>(mask: &mut S, authenticator: &mut Authenticator<H>, part: &[u8]) {
    let mut buf = [0; PART];
    let text = &mut buf[..part.len()];
    text.copy_from_slice(part);
    step(Order::MaskFirst, mask, authenticator, text);
}

// Authenticates the text of a piece of a ciphertext.
pub(in crate::proved::aead) fn take_text<S: MaskWith<H>, H: TagHash>(
    mask: &mut S,
    authenticator: &mut Authenticator<H>,
    piece: &[u8],
) {
    let mut done = 0;
    while done < piece.len() {
        let next = (piece.len() - done).min(PART);
        take_part(mask, authenticator, &piece[done..done + next]);
        done += next;
    }
}
