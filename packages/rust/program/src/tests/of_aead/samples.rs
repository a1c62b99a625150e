// Made from crates/aeadkit/src/tests/of_aead/samples.rt by tools/erase: not to be edited.
//! The bytes of published vectors, with their ciphers.
use super::super::digits::bytes;
use super::super::published::Vector;
use crate::kit::alloc::{Allocator, Global, Vec};
use crate::kit::{Abort, Alloc};
use aeadkit::internals::aead::{AnyAead, AnyOnePass, GcmSiv, Suite};
use aeadkit::internals::octets::{Nonce, Tag};

/// A published sealing, with its cipher.
pub struct Sample {
    pub cipher: AnyAead,
    pub nonce: Nonce,
    pub aad: Vec<u8>,
    pub text: Vec<u8>,
    pub sealed: Vec<u8>,
}

/// The sample that a line of `published` describes.
pub fn sample_of(rt: &(impl Abort + Alloc<A = Global>), line: &str) -> Sample {
    let vector = Vector::of(line);
    let suite = Suite::named(vector.suite).expect("a suite's name");
    Sample {
        cipher: AnyAead::new(suite, &bytes(rt, vector.key)).expect("a key"),
        nonce: Nonce::from_slice(&bytes(rt, vector.nonce)).expect("a nonce"),
        aad: bytes(rt, vector.aad),
        text: bytes(rt, vector.text),
        sealed: bytes(rt, vector.sealed),
    }
}

/// The cipher, if its suite reads the text once.
pub fn one_pass(cipher: &AnyAead) -> Option<&AnyOnePass> {
    match cipher {
        AnyAead::OnePass(cipher) => Some(cipher),
        AnyAead::Siv(_) => None,
    }
}

/// The cipher, if its suite reads the text twice.
pub fn two_pass(cipher: &AnyAead) -> Option<&GcmSiv> {
    match cipher {
        AnyAead::OnePass(_) => None,
        AnyAead::Siv(cipher) => Some(cipher),
    }
}

/// The first `count` bytes, or all bytes if there are fewer.
pub fn first(bytes: &[u8], count: usize) -> &[u8] {
    &bytes[..count.min(bytes.len())]
}

/// Whether a ciphertext and its tag, joined, are these bytes.
pub fn are_sealed(body: &[u8], tag: &Tag, sealed: &[u8]) -> bool {
    match sealed.strip_prefix(body) {
        Some(last) => last == tag.bytes().as_slice(),
        None => false,
    }
}

/// Whether these pieces, joined, are these bytes.
pub fn are_joined<A: Allocator>(pieces: &[Vec<u8, A>], bytes: &[u8]) -> bool {
    let mut rest = bytes;
    for piece in pieces {
        match rest.strip_prefix(piece.as_slice()) {
            Some(behind) => rest = behind,
            None => return false,
        }
    }
    rest.is_empty()
}
