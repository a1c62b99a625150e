// Made from crates/aeadkit/src/tests/of_aead/long_text.rt by tools/erase: not to be edited.
//! A text of more than 1,024 bytes, as OpenSSL seals it.
use super::super::digits::bytes;
use super::super::shows;
use crate::kit::alloc::Global;
use crate::kit::{Abort, Alloc, HostRuntime};
use aeadkit::internals::aead::{Aead, AnyAead, AnyOnePass, GcmSiv, Sealer, SivAbsorb, Suite};
use aeadkit::internals::octets::{Nonce, Tag};

// A key of n bytes is the first n of these bytes; the nonce is the first twelve.
const KEY: [u8; 32] = [
    0, 1, 2, 3, 4, 5, 6, 7, 8, 9, 10, 11, 12, 13, 14, 15, 16, 17, 18, 19, 20, 21, 22, 23, 24, 25, 26, 27, 28, 29, 30,
    31,
];

// Four runs of sixteen blocks, one more block and one more byte. Byte i is 7 i + i / 256, modulo 256.
fn text() -> [u8; 1041] {
    let mut bytes = [0; 1041];
    for (i, byte) in bytes.iter_mut().enumerate() {
        *byte = ((i % 256) as u8).wrapping_mul(7).wrapping_add((i / 256 % 256) as u8);
    }
    bytes
}

// Seals a text in place, and compares its tag with this one.
fn has_tag(rt: &(impl Abort + Alloc<A = Global>), suite: Suite, aad: &[u8], text: &mut [u8], tag: &str) {
    let key = &KEY[..suite.key_length().min(32)];
    let cipher = AnyAead::new(suite, key).expect("a key");
    let nonce = Nonce::from_slice(&KEY[..12]).expect("a nonce");
    let made = cipher.seal_in_place(&nonce, aad, text).expect("a tag");
    shows(rt, made.bytes().as_slice() == bytes(rt, tag).as_slice(), tag);
}

// The suite, the tag, and a digest of the ciphertext. The digest is the tag of ChaCha20-Poly1305 for an empty text
// whose associated data is the ciphertext.
const SEALINGS: [(Suite, &str, &str); 6] = [
    (Suite::ChaCha20Poly1305, "126fe556568b238c053271d44363a394", "6db03b65d0e46a10ad5e9634ba734120"),
    (Suite::Aes128Gcm, "e42e554ce3b181c0663620583fde8165", "9d3920dbe4e0ba0bbe6510c6ae8b32b8"),
    (Suite::Aes192Gcm, "f418a50274317428ab7ad969e4b5057a", "28495e3337be9f93e615a6c5d4cfeb73"),
    (Suite::Aes256Gcm, "38a5094c408622477dc84b0fa224b9b0", "11e8f338811bb33fa71d701b8f1443a1"),
    (Suite::Aes128GcmSiv, "c40bdfca0c01cf90dfaba2d18d0c1677", "5be5fcc4d4d0c4dbd91e3dec664ed7e8"),
    (Suite::Aes256GcmSiv, "63d6be4bfdc96f19d48b33cff6d02a0e", "88ce3480f0aa7ddb0915e127273ad312"),
];

#[test]
fn a_long_text() {
    let rt = HostRuntime;
    for (suite, tag, digest) in &SEALINGS {
        let mut held = text();
        has_tag(&rt, *suite, &[], &mut held, tag);
        has_tag(&rt, Suite::ChaCha20Poly1305, &held, &mut [], digest);
    }
}

// Seals a text that is read once, in a long piece and a short one, and returns the tag.
fn by_one_reading(rt: &impl Abort, cipher: &AnyOnePass, nonce: &Nonce, text: &mut [u8]) -> Tag {
    let (front, back) = text.split_at_mut(text.len().min(721));
    let mut sealer = Sealer::new(cipher, nonce, &[]).expect("a sealer");
    shows(rt, sealer.update(front).is_ok(), "a long piece");
    shows(rt, sealer.update(back).is_ok(), "a short piece");
    sealer.finish()
}

// Seals a text that is read twice, in a long piece and a short one, and returns the tag.
fn by_two_readings(rt: &impl Abort, cipher: &GcmSiv, nonce: &Nonce, text: &mut [u8]) -> Tag {
    let (front, back) = text.split_at_mut(text.len().min(721));
    let mut absorb = SivAbsorb::new(cipher, nonce, &[]).expect("a state");
    shows(rt, absorb.update(front).is_ok(), "a long piece");
    shows(rt, absorb.update(back).is_ok(), "a short piece");
    let (tag, mut writer) = absorb.finish();
    shows(rt, writer.update(front).is_ok(), "a long piece");
    shows(rt, writer.update(back).is_ok(), "a short piece");
    shows(rt, writer.finish().is_ok(), "the end");
    tag
}

#[test]
fn a_long_text_in_pieces() {
    let rt = HostRuntime;
    for (suite, tag, digest) in &SEALINGS {
        let key = &KEY[..suite.key_length().min(32)];
        let cipher = AnyAead::new(*suite, key).expect("a key");
        let nonce = Nonce::from_slice(&KEY[..12]).expect("a nonce");
        let mut held = text();
        let made = match &cipher {
            AnyAead::OnePass(cipher) => by_one_reading(&rt, cipher, &nonce, &mut held),
            AnyAead::Siv(cipher) => by_two_readings(&rt, cipher, &nonce, &mut held),
        };
        let given = bytes(&rt, tag);
        shows(&rt, made.bytes().as_slice() == given.as_slice(), tag);
        has_tag(&rt, Suite::ChaCha20Poly1305, &held, &mut [], digest);
    }
}
