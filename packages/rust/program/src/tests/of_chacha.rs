// Made from crates/aeadkit/src/tests/of_chacha.rt by tools/erase: not to be edited.
//! ChaCha20: single blocks, and the key stream in pieces.

use super::digits::bytes;
use super::{shows, shows_at};
use crate::kit::HostRuntime;
use crate::kit::rand_chacha::ChaCha20Rng;
use crate::kit::rand_chacha::rand_core::{Rng, SeedableRng};
use aeadkit::internals::chacha::{ChaStream, block};
use aeadkit::internals::octets::{Fault, Key32, Nonce};

// 00 01 .. 1f
const KEY: [u8; 32] = [
    0, 1, 2, 3, 4, 5, 6, 7, 8, 9, 10, 11, 12, 13, 14, 15, 16, 17, 18, 19, 20, 21, 22, 23, 24, 25, 26, 27, 28, 29, 30,
    31,
];

// A key, a counter, a nonce, and the block: RFC 8439, 2.3.2, and A.1, vector 1.
const BLOCKS: [([u8; 32], u32, [u8; 12], &str); 2] = [
    (
        KEY,
        1,
        [0, 0, 0, 9, 0, 0, 0, 0x4a, 0, 0, 0, 0],
        "10f1e7e4d13b5915500fdd1fa32071c4c7d1f4c733c068030422aa9ac3d46c4e\
        d2826446079faa0914c2d705d98b02a2b5129cd1de164eb9cbd083e8a2503c4e",
    ),
    (
        [0; 32],
        0,
        [0; 12],
        "76b8e0ada0f13d90405d6ae55386bd28bdd219b8a08ded1aa836efcc8b770dc7\
        da41597c5157488d7724e03fb8d84a376a43b8f41518a11cc387b669b2ee6586",
    ),
];

#[test]
fn published_blocks() {
    let rt = HostRuntime;
    for (key, counter, nonce, due) in &BLOCKS {
        let made = block(&Key32::new(*key), *counter, &Nonce::new(*nonce));
        shows(&rt, made.as_slice() == bytes(&rt, due).as_slice(), due);
    }
}

// Whether another implementation gives these bytes as the block of this counter.
fn are_words(other: &mut ChaCha20Rng, counter: u32, block: &[u8; 64]) -> bool {
    other.set_word_pos(16 * counter as u128);
    let mut agree = true;
    for word in block.chunks(4) {
        agree &= word == other.next_u32().to_le_bytes().as_slice();
    }
    agree
}

#[test]
fn blocks_of_another_implementation() {
    let rt = HostRuntime;
    let nonce = Nonce::new([0, 0, 0, 0, 0, 1, 2, 3, 4, 5, 6, 7]);
    let mut other = ChaCha20Rng::from_seed(KEY);
    other.set_stream(0x0706_0504_0302_0100);
    for counter in [0, 1, u32::MAX] {
        let made = block(&Key32::new(KEY), counter, &nonce);
        shows_at(&rt, are_words(&mut other, counter, &made), "block", u64::from(counter));
    }
}

// Ten blocks from the counter `first` on, each computed by a call of its own.
fn ten_blocks(first: u32) -> [[u8; 64]; 10] {
    let mut blocks = [[0; 64]; 10];
    for (i, made) in blocks.iter_mut().enumerate() {
        *made = block(&Key32::new(KEY), first.wrapping_add(i as u32), &Nonce::new([7; 12]));
    }
    blocks
}

// The key stream from block `first` on.
fn stream(first: u32) -> ChaStream {
    ChaStream::new(&Key32::new(KEY), &Nonce::new([7; 12]), first)
}

// Whether a stream from block `first` on gives, in pieces of `size` bytes, the first `length` bytes of the blocks that
// are computed one by one, and changes no byte after them.
fn gives(first: u32, length: usize, size: usize) -> bool {
    let mut stream = stream(first);
    let mut bytes = [0; 640];
    let (front, back) = bytes.split_at_mut(length);
    let mut made = true;
    for piece in front.chunks_mut(size) {
        made &= stream.apply(piece).is_ok();
    }
    made && ten_blocks(first).as_flattened().starts_with(front) && [0; 640].starts_with(back)
}

#[test]
fn every_length() {
    let rt = HostRuntime;
    for length in 0..601usize {
        shows_at(&rt, gives(0, length, 640), "length", length as u64);
    }
}

#[test]
fn pieces_of_each_size() {
    let rt = HostRuntime;
    for size in [1, 63, 64, 65, 255, 256, 257, 300, 511usize] {
        shows_at(&rt, gives(0, 640, size), "pieces of", size as u64);
    }
}

// A block near the last one, how many bytes are encrypted from there, and the size of the pieces.
const LAST: [(u32, usize, usize); 9] = [
    (u32::MAX, 64, 64),
    (u32::MAX, 64, 63),
    (u32::MAX - 1, 128, 128),
    (u32::MAX - 2, 192, 192),
    (u32::MAX - 3, 256, 255),
    (u32::MAX - 4, 320, 320),
    (u32::MAX - 5, 384, 383),
    (u32::MAX - 6, 448, 448),
    (u32::MAX - 7, 512, 512),
];

#[test]
fn the_last_blocks() {
    let rt = HostRuntime;
    for (first, length, size) in &LAST {
        let length = (*length).min(640);
        shows_at(&rt, gives(*first, length, (*size).max(1)), "length", length as u64);
    }
}

// A block near the last one, how many bytes are encrypted from there, how many are then refused, and how many are
// encrypted after that.
const PAST: [(u32, usize, usize, usize); 3] =
    [(u32::MAX, 64, 1, 0), (u32::MAX, 0, 65, 64), (u32::MAX - 2, 0, 193, 192)];

// Bytes past the last block are refused and left as they were, and the stream keeps its position.
#[test]
fn past_the_last_block() {
    let rt = HostRuntime;
    for (first, before, refused, after) in &PAST {
        let mut stream = stream(*first);
        let mut bytes = [9; 640];
        shows(&rt, stream.apply(&mut [0; 640][..(*before).min(640)]).is_ok(), "bytes before");
        let answer = stream.apply(&mut bytes[..(*refused).min(640)]);
        shows(&rt, answer == Err(Fault::StreamEnd) && bytes == [9; 640], "bytes past the end");
        shows(&rt, stream.apply(&mut bytes[..(*after).min(640)]).is_ok(), "bytes after");
    }
}
