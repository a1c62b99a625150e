// Made from crates/aeadkit/src/tests/digits.rt by tools/erase: not to be edited.
//! The bytes that hex digits spell.
use crate::kit::alloc::{Global, Vec};
use crate::kit::{Abort, Alloc};

/// The bytes that hex digits spell.
pub fn bytes(rt: &(impl Abort + Alloc<A = Global>), digits: &str) -> Vec<u8> {
    crate::kit::hex::decode(rt.alloc(), digits).expect("digits")
}

/// The sixteen bytes that hex digits spell.
pub fn sixteen(rt: &(impl Abort + Alloc<A = Global>), digits: &str) -> [u8; 16] {
    *bytes(rt, digits).first_chunk::<16>().expect("a block")
}

/// Flips a bit. Bits are numbered from the lowest one of the first byte.
pub fn flip(bytes: &mut [u8], bit: usize) {
    if let Some(byte) = bytes.get_mut(bit / 8) {
        *byte ^= 1 << (bit % 8);
    }
}
