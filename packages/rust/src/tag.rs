//! Tags.

use crate::TAG_BYTES;
use core::hint::black_box;
use core::ops::Deref;

/// The tag of a sealed text. It can be used as an array: `&tag` is a `&[u8; 16]`, and `*tag` is the array.
///
/// The compiler warns if the tag of a call is dropped, also behind `?`, since the text cannot be opened without it.
#[must_use = "a sealed text cannot be opened without its tag"]
#[derive(Clone, Copy, Debug, Eq)]
pub struct Tag(pub [u8; TAG_BYTES]);

/// Takes the same time wherever the tags differ. Arrays of bytes do not promise that: compare tags as `Tag(given) == tag`. An
/// opening compares the tags itself.
impl PartialEq for Tag {
    fn eq(&self, other: &Tag) -> bool {
        let difference = u128::from_ne_bytes(self.0) ^ u128::from_ne_bytes(other.0);
        // Both halves as one word that the compiler knows nothing of, so that it cannot branch on one of them.
        black_box(difference as u64 | (difference >> 64) as u64) == 0
    }
}

impl Deref for Tag {
    type Target = [u8; TAG_BYTES];

    fn deref(&self) -> &[u8; TAG_BYTES] {
        &self.0
    }
}

impl From<Tag> for [u8; TAG_BYTES] {
    fn from(tag: Tag) -> [u8; TAG_BYTES] {
        tag.0
    }
}

#[cfg(test)]
mod tests {
    use super::*;

    #[test]
    fn each_bit_counts() {
        let tag = Tag([0x5a; TAG_BYTES]);
        assert_eq!(tag, Tag(*tag));
        for bit in 0..8 * TAG_BYTES {
            let mut other = tag;
            other.0[bit / 8] ^= 1 << (bit % 8);
            assert_ne!(tag, other);
        }
    }
}
