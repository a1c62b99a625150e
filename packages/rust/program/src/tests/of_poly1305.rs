// Made from crates/aeadkit/src/tests/of_poly1305.rt by tools/erase: not to be edited.
//! Poly1305.

use super::digits::{bytes, sixteen};
use super::shows_at;
use crate::kit::HostRuntime;
use aeadkit::internals::octets::Tag;
use aeadkit::internals::poly1305::{Multiplier, NibbleMul, PolyBy, WordMul};

// The tag of a text that is cut into pieces of `size` bytes and then padded `pads` times.
fn tag_by<M: Multiplier>(key: &[u8; 32], text: &[u8], size: usize, pads: usize) -> Tag {
    let mut poly: PolyBy<M> = PolyBy::new(key);
    for piece in text.chunks(size) {
        poly.update(piece);
    }
    for _ in 0..pads {
        poly.pad16();
    }
    poly.finish()
}

// Whether each multiplier gives this tag.
fn is_tag(key: &[u8; 32], text: &[u8], size: usize, pads: usize, tag: &[u8; 16]) -> bool {
    tag_by::<WordMul>(key, text, size, pads).bytes() == tag && tag_by::<NibbleMul>(key, text, size, pads).bytes() == tag
}

// r = 2, and s = 0.
const TWO: [u8; 32] = [2, 0, 0, 0, 0, 0, 0, 0, 0, 0, 0, 0, 0, 0, 0, 0, 0, 0, 0, 0, 0, 0, 0, 0, 0, 0, 0, 0, 0, 0, 0, 0];

// r = 2, and s = 2^128 - 1.
const TWO_AND_ONES: [u8; 32] = [
    2, 0, 0, 0, 0, 0, 0, 0, 0, 0, 0, 0, 0, 0, 0, 0, 255, 255, 255, 255, 255, 255, 255, 255, 255, 255, 255, 255, 255,
    255, 255, 255,
];

// r = 1, and s = 0.
const ONE: [u8; 32] = [1, 0, 0, 0, 0, 0, 0, 0, 0, 0, 0, 0, 0, 0, 0, 0, 0, 0, 0, 0, 0, 0, 0, 0, 0, 0, 0, 0, 0, 0, 0, 0];

// RFC 8439, 2.5.2.
const PUBLISHED: [u8; 32] = *b"\x85\xd6\xbe\x78\x57\x55\x6d\x33\x7f\x44\x52\xfe\x42\xd5\x06\xa8\
    \x01\x03\x80\x8a\xfb\x0d\xb2\xfd\x4a\xbf\xf6\xaf\x41\x49\xf5\x1b";

const ZERO: &str = "00000000000000000000000000000000";

// A key, a text, how often it is padded, and the tag.
const TAGS: [([u8; 32], &str, usize, &str); 9] = [
    // 2 (2^129 - 1) is 3 past the modulus.
    (TWO, "ffffffffffffffffffffffffffffffff", 0, "03000000000000000000000000000000"),
    // 2^130 - 6 is the greatest residue.
    (TWO, "fdffffffffffffffffffffffffffffff", 0, "faffffffffffffffffffffffffffffff"),
    // The carry past bit 128 of the sum with s is dropped.
    (TWO_AND_ONES, "02000000000000000000000000000000", 0, "03000000000000000000000000000000"),
    // RFC 8439, 2.5.2.
    (
        PUBLISHED,
        "43727970746f6772617068696320466f72756d2052657365617263682047726f7570",
        0,
        "a8061dc1305136c6c22b8baf0c0127a9",
    ),
    // The tag of an empty text is s.
    (PUBLISHED, "", 0, "0103808afb0db2fd4abff6af4149f51b"),
    // Padding is part of the text: a zero byte counts as 2^8 without padding, and as 2^128 with it. Padding adds
    // nothing to whole blocks.
    (ONE, "00", 0, "00010000000000000000000000000000"),
    (ONE, "00", 1, ZERO),
    (ONE, "00", 2, ZERO),
    (ONE, "", 1, ZERO),
];

#[test]
fn tags() {
    let rt = HostRuntime;
    for (key, text, pads, tag) in &TAGS {
        let tag = sixteen(&rt, tag);
        let text = bytes(&rt, text);
        for size in [1, 16, 17, 34usize] {
            shows_at(&rt, is_tag(key, &text, size, *pads, &tag), "pieces of", size as u64);
        }
    }
}
