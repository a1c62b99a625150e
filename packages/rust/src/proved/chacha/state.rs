// Made from crates/chacha/src/state.rt by tools/erase: not to be edited.
//! The state from which a block of ChaCha20 starts (RFC 8439, 2.3).

use crate::kit::byteorder::{ByteOrder, LittleEndian};
use crate::proved::octets::{Key32, Nonce};

// The little-endian word of the four bytes that start at offset `4 * i`.
#[inline(always)]
fn word(bytes: &[u8], i: usize) -> u32 {
    LittleEndian::read_u32(&bytes[4 * i..])
}

// The little-endian words of the first eight bytes, which are read at once: a nonce was copied as eight bytes and four, and a read
// of parts of both would wait until they have reached the cache.
#[inline(always)]
fn two_words(bytes: &[u8]) -> (u32, u32) {
    let both = LittleEndian::read_u64(bytes);
    ((both % 0x1_0000_0000) as u32, (both >> 32) as u32)
}

// Four constants, eight words of the key, the counter, three words of the nonce.
pub(in crate::proved::chacha) fn initial_state(key: &Key32, counter: u32, nonce: &Nonce) -> [u32; 16] {
    let key = key.bytes();
    let nonce = nonce.bytes();
    let (first, second) = two_words(nonce);
    [
        0x6170_7865,
        0x3320_646e,
        0x7962_2d32,
        0x6b20_6574,
        word(key, 0),
        word(key, 1),
        word(key, 2),
        word(key, 3),
        word(key, 4),
        word(key, 5),
        word(key, 6),
        word(key, 7),
        counter,
        first,
        second,
        word(nonce, 2),
    ]
}
