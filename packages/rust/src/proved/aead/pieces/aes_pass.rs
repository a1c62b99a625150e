// Made from crates/aead/src/pieces/aes_pass.rt by tools/erase: not to be edited.
//! The steps of a pass over a message under AES-GCM (SP 800-38D, 7) and AES-GCM-SIV (RFC 8452, 4), by the key that its text is
//! encrypted with.

use crate::proved::aead::hashes::{BlockKeys, first_block};
use crate::proved::aead::pieces::keys::{AesKeys, ExpandedKey, KeyBytes, LentMul};
use crate::proved::aead::pieces::pass_state::PassState;
use crate::proved::aead::pieces::text_parts::PART;
use crate::proved::aead::rule::Rule;
use crate::proved::aead::step::Order;
use crate::proved::aes::{AesKey, Ctr, KnownBlock};
use crate::proved::gf128::{Keyed128, TableMul, WideMul};
use crate::proved::octets::{Block, Nonce};

// The initial state for associated data, with a table that is made here, so that only this call has it on its stack.
#[inline(never)]
fn state_after_aad<R: Rule>(secret: [u8; 32], aad: &[u8]) -> PassState {
    let multiplier = TableMul::of(&first_block(&secret));
    PassState::initial(&BlockKeys::<TableMul, R>::by(&multiplier), secret, aad)
}

// The initial state for associated data. Without them no table is needed.
pub(in crate::proved::aead) fn initial_state<R: Rule>(secret: [u8; 32], aad: &[u8]) -> PassState {
    if aad.is_empty() { PassState::empty(secret) } else { state_after_aad::<R>(secret, aad) }
}

// Masks and authenticates a piece with a key schedule and a multiplier.
fn mask_expanded<R: Rule>(
    state: &mut PassState,
    keys: ExpandedKey,
    nonce: &Nonce,
    known: &mut KnownBlock,
    order: Order,
    tag: &[u8; 16],
    piece: &mut [u8],
) {
    let first = R::first_counter(nonce, tag);
    let mut mask = Ctr::<R::Count>::at_known(keys.key, &first, state.length, known);
    state.step(&BlockKeys::<LentMul, R>::by(&keys.multiplier), &mut mask, order, piece);
    mask.set_known(known);
}

// Masks and authenticates a piece under the bytes of a key. Only this call has the key schedule and the table on its stack.
#[inline(never)]
fn mask_anew<R: Rule>(
    state: &mut PassState,
    bytes: KeyBytes,
    nonce: &Nonce,
    known: &mut KnownBlock,
    order: Order,
    tag: &[u8; 16],
    piece: &mut [u8],
) {
    let key = bytes.schedule();
    let multiplier = TableMul::of(&state.multiplier_key());
    let keys = ExpandedKey { key: &key, multiplier: LentMul::Table(&multiplier) };
    mask_expanded::<R>(state, keys, nonce, known, order, tag, piece);
}

// Masks and authenticates a piece.
#[inline(always)]
pub(in crate::proved::aead) fn mask<R: Rule>(
    state: &mut PassState,
    keys: AesKeys,
    nonce: &Nonce,
    known: &mut KnownBlock,
    order: Order,
    tag: &[u8; 16],
    piece: &mut [u8],
) {
    match keys {
        AesKeys::Expanded(keys) => mask_expanded::<R>(state, keys, nonce, known, order, tag, piece),
        AesKeys::Bytes(bytes) => mask_anew::<R>(state, bytes, nonce, known, order, tag, piece),
    }
}

// Authenticates a piece with a table that is made here. The hash needs no key schedule.
#[inline(never)]
fn take_anew<R: Rule>(state: &mut PassState, piece: &[u8]) {
    let multiplier = TableMul::of(&state.multiplier_key());
    state.take(&BlockKeys::<TableMul, R>::by(&multiplier), piece);
}

// Authenticates a piece.
#[inline(always)]
pub(in crate::proved::aead) fn take<R: Rule>(state: &mut PassState, keys: AesKeys, piece: &[u8]) {
    match keys {
        AesKeys::Expanded(keys) => state.take(&BlockKeys::<LentMul, R>::by(&keys.multiplier), piece),
        AesKeys::Bytes(_) => take_anew::<R>(state, piece),
    }
}

// Authenticates the text of a long piece of a ciphertext, which is decrypted part by part. The round keys are put into planes once,
// and not for each part. Only this call has them on its stack.
#[inline(never)]
fn take_text_in_planes<R: Rule>(
    state: &mut PassState,
    key: &AesKey,
    multiplier: LentMul,
    nonce: &Nonce,
    tag: &[u8; 16],
    piece: &[u8],
) {
    let first = R::first_counter(nonce, tag);
    let mut planes = [[0; 8]; 15];
    key.make_planes(&mut planes);
    let mut mask = Ctr::<R::Count>::in_planes(key, &planes, &first, state.length);
    state.take_text(&BlockKeys::<LentMul, R>::by(&multiplier), &mut mask, piece);
}

// Authenticates the text of a long piece of a ciphertext. The tables of four powers of the hash key are made once, and not for each
// part. Only this call has them on its stack.
#[inline(never)]
fn take_text_by_powers<R: Rule>(
    state: &mut PassState,
    key: &AesKey,
    table: &TableMul,
    nonce: &Nonce,
    tag: &[u8; 16],
    piece: &[u8],
) {
    let mut multiplier = WideMul::none();
    multiplier.set_table(table);
    let lent = LentMul::Wide(&multiplier);
    take_text_in_planes::<R>(state, key, lent, nonce, tag, piece);
}

// Authenticates the text of a piece of a ciphertext with a key schedule and a multiplier.
fn take_text_expanded<R: Rule>(state: &mut PassState, keys: ExpandedKey, nonce: &Nonce, tag: &[u8; 16], piece: &[u8]) {
    if piece.len() > PART {
        match keys.multiplier {
            LentMul::Table(table) => take_text_by_powers::<R>(state, keys.key, table, nonce, tag, piece),
            LentMul::Wide(_) => take_text_in_planes::<R>(state, keys.key, keys.multiplier, nonce, tag, piece),
        }
        return;
    }
    let first = R::first_counter(nonce, tag);
    let mut mask = Ctr::<R::Count>::at_known(keys.key, &first, state.length, &KnownBlock::none());
    state.take_text(&BlockKeys::<LentMul, R>::by(&keys.multiplier), &mut mask, piece);
}

// Authenticates the text of a piece of a ciphertext under the bytes of a key. Only this call has the key schedule and the table on
// its stack.
#[inline(never)]
fn take_text_anew<R: Rule>(state: &mut PassState, bytes: KeyBytes, nonce: &Nonce, tag: &[u8; 16], piece: &[u8]) {
    let key = bytes.schedule();
    let multiplier = TableMul::of(&state.multiplier_key());
    let keys = ExpandedKey { key: &key, multiplier: LentMul::Table(&multiplier) };
    take_text_expanded::<R>(state, keys, nonce, tag, piece);
}

// Authenticates the text of a piece of a ciphertext.
#[inline(always)]
pub(in crate::proved::aead) fn take_text<R: Rule>(
    state: &mut PassState,
    keys: AesKeys,
    nonce: &Nonce,
    tag: &[u8; 16],
    piece: &[u8],
) {
    match keys {
        AesKeys::Expanded(keys) => take_text_expanded::<R>(state, keys, nonce, tag, piece),
        AesKeys::Bytes(bytes) => take_text_anew::<R>(state, bytes, nonce, tag, piece),
    }
}

// Returns the hash of what was authenticated, with a table that is made here.
#[inline(never)]
fn digest_anew<R: Rule>(state: &PassState) -> Block {
    let multiplier = TableMul::of(&state.multiplier_key());
    state.digest(&BlockKeys::<TableMul, R>::by(&multiplier))
}

// Returns the hash of what was authenticated, of which the tag is made.
#[inline(always)]
pub(in crate::proved::aead) fn digest<R: Rule>(state: &PassState, keys: AesKeys) -> Block {
    match keys {
        AesKeys::Expanded(keys) => state.digest(&BlockKeys::<LentMul, R>::by(&keys.multiplier)),
        AesKeys::Bytes(_) => digest_anew::<R>(state),
    }
}
