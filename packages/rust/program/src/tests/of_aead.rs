// Made from crates/aeadkit/src/tests/of_aead.rt by tools/erase: not to be edited.
//! The calls of `aead` on published vectors.
mod cuts;
mod long_text;
mod open_streams;
mod pieces;
mod refused_memory;
mod samples;
mod seal_streams;

use super::digits::{bytes, flip};
use super::published::{VECTORS, Vector, WITH_AAD};
use super::shows;
use crate::kit::alloc::Global;
use crate::kit::{Abort, Alloc, HostRuntime};
use aeadkit::internals::aead::{Aead, AnyAead, AnyOnePass, Sealer, Suite};
use aeadkit::internals::octets::{Fault, Nonce, Tag};
use samples::{Sample, are_sealed, first, one_pass, sample_of};

// Seals a text in place, compares the sealing with the published one, and opens it again.
fn is_sealed(rt: &impl Abort, sample: &Sample, bytes: &mut [u8]) {
    let Sample { nonce, aad, .. } = sample;
    let sealed = sample.cipher.seal_in_place(nonce, aad, bytes);
    let tag = sealed.expect("a tag");
    shows(rt, are_sealed(bytes, &tag, &sample.sealed), "a sealing");
    let opened = sample.cipher.open_in_place(nonce, aad, bytes, &tag);
    shows(rt, opened.is_ok() && &*bytes == sample.text.as_slice(), "a text");
}

// Whether the sealing is refused with any one of its bits flipped, and the bytes are left as they were.
fn needs_each_bit(sample: &Sample, sealed: &mut [u8]) -> bool {
    let mut is_needed = true;
    for bit in 0..sealed.len().saturating_mul(8) {
        flip(sealed, bit);
        if let Some((body, tag)) = sealed.split_last_chunk_mut::<16>() {
            let tag = Tag::new(*tag);
            let Sample { nonce, aad, .. } = sample;
            let opened = sample.cipher.open_in_place(nonce, aad, body, &tag);
            is_needed &= opened == Err(Fault::TagMismatch);
        }
        flip(sealed, bit);
        is_needed &= &*sealed == sample.sealed.as_slice();
    }
    is_needed
}

// A published vector, with the cipher that its suite names.
fn is_published(rt: &(impl Abort + Alloc<A = Global>), line: &str) {
    let sample = sample_of(rt, line);
    let mut text = bytes(rt, Vector::of(line).text);
    is_sealed(rt, &sample, &mut text);
    let mut sealed = bytes(rt, Vector::of(line).sealed);
    shows(rt, needs_each_bit(&sample, &mut sealed), line);
}

// More bytes than the longest text that has a way of its own.
const ZEROS: [u8; 640] = [0; 640];

// Seals zeros whole, where a short text takes a way of its own, and as one piece, where it does not, and opens the sealing again.
fn is_sealed_alike(rt: &impl Abort, cipher: &AnyOnePass, count: usize) {
    let nonce = Nonce::new([7; 12]);
    let aad = [9; 20];
    let text = first(&ZEROS, count);
    let (mut by_call, mut by_piece) = (ZEROS, ZEROS);
    let by_call = &mut by_call[..text.len().min(640)];
    let by_piece = &mut by_piece[..text.len().min(640)];
    let mut sealer = Sealer::new(cipher, &nonce, &aad).expect("a sealer");
    shows(rt, sealer.update(by_piece).is_ok(), "a piece");
    let due = sealer.finish();
    let tag = cipher.seal_in_place(&nonce, &aad, by_call).expect("a tag");
    shows(rt, tag.bytes() == due.bytes(), "the same tag");
    shows(rt, &*by_call == &*by_piece, "the same ciphertext");
    let opened = cipher.open_in_place(&nonce, &aad, by_call, &tag);
    shows(rt, opened.is_ok() && &*by_call == text, "the text");
}

// Both ways give the same sealings, at each length up to more than the short ways take.
#[test]
fn short_texts_are_sealed_alike() {
    let rt = HostRuntime;
    for number in 1..5u32 {
        let suite = Suite::from_number(number).expect("a suite");
        let key = first(&ZEROS, suite.key_length());
        let cipher = AnyAead::new(suite, key).expect("a key");
        let cipher = one_pass(&cipher).expect("one reading");
        for count in 0..640usize {
            is_sealed_alike(&rt, cipher, count);
        }
    }
}

#[test]
fn published_sealings() {
    let rt = HostRuntime;
    for line in &VECTORS {
        is_published(&rt, line);
    }
    for line in &WITH_AAD {
        is_published(&rt, line);
    }
}
