// Made from crates/aead/src/chacha_poly.rt by tools/erase: not to be edited.
//! The cipher ChaCha20-Poly1305 (RFC 8439, 2.8). The block with counter 0 begins with the key of Poly1305, and the text is
//! masked from counter 1 on.
//!
//! A text that the first blocks of the key stream cover goes its own way, by `seal_short` and `open_short`. All other texts go
//! through `one_pass`, by `BufferedChaCha` or `NoncedChaCha`. A change keeps alike in both where the key of Poly1305 and the mask
//! begin, that the hash is over the ciphertext, and that `open_fitting` compares the tags before it decrypts a byte.

use crate::proved::aead::aead::Aead;
use crate::proved::aead::authenticator::Authenticator;
use crate::proved::aead::buffered_stream::BufferedStream;
use crate::proved::aead::one_pass::{OnePass, open_and_restore, open_whole, seal_whole};
use crate::proved::aead::suite::Suite;
use crate::proved::chacha::{
    BlocksAtOnce, ChaStream, EightBlocks, FiveBlocks, FourBlocks, KeyStreamStart, SEVEN_BLOCKS, SixBlocks, ThreeBlocks,
    TwoBlocks, block,
};
use crate::proved::octets::{Block, Fault, Key32, Nonce, Tag, same, xor_into};
use crate::proved::poly1305::Poly;

/// ChaCha20-Poly1305 under a key of 32 bytes (RFC 8439, 2.8). Opening in place authenticates before it
/// changes a byte. Contracts see its suite and key.
pub struct ChaChaPoly {
    key: Key32,
}

impl ChaChaPoly {
    /// ChaCha20-Poly1305 under a key of 32 bytes.
    pub fn new(key: &Key32) -> ChaChaPoly {
        ChaChaPoly { key: *key }
    }

    // Returns the key.
    pub(in crate::proved::aead) fn key(&self) -> &Key32 {
        &self.key
    }

    // Seals a text. The first blocks of the key stream are made together, as many as `S` says.
    #[inline(never)]
    fn seal_at_once<S: KeyStreamStart>(&self, nonce: &Nonce, aad: &[u8], text: &mut [u8]) -> Tag {
        let key = &self.key;
        let mut first = S::zeros();
        first.set(key, nonce);
        let start = first.blocks();
        let message = BufferedChaCha { key, nonce, start };
        if text.len() <= start.len() - 64 {
            return message.seal_short(aad, text);
        }
        seal_whole(&message, aad, text)
    }

    // Opens a ciphertext. The first blocks of the key stream are made together, as many as `S` says.
    #[inline(never)]
    fn open_at_once<S: KeyStreamStart>(
        &self,
        nonce: &Nonce,
        aad: &[u8],
        body: &mut [u8],
        tag: &Tag,
    ) -> Result<(), Fault> {
        let key = &self.key;
        let mut first = S::zeros();
        first.set(key, nonce);
        let start = first.blocks();
        let message = BufferedChaCha { key, nonce, start };
        if body.len() <= start.len() - 64 {
            return message.open_short(aad, body, tag);
        }
        open_whole(&message, aad, body, tag)
    }
}

// Returns the one-time key of Poly1305: the first 32 bytes of the block with counter 0 (RFC 8439, 2.6).
pub(in crate::proved::aead) fn one_time_key(key: &Key32, nonce: &Nonce) -> [u8; 32] {
    first_32(&block(key, 0, nonce))
}

// Returns the mask of a message, after its first `done` bytes.
pub(in crate::proved::aead) fn mask_at(key: &Key32, nonce: &Nonce, done: u64) -> ChaStream {
    ChaStream::at(key, nonce, 64 + done)
}

// Returns the tag, which is the hash.
#[inline(always)]
pub(in crate::proved::aead) fn hash_as_tag(digest: &Block) -> Tag {
    Tag::new(*digest.bytes())
}

// Returns the first 32 bytes.
pub(in crate::proved::aead) fn first_32(start: &[u8]) -> [u8; 32] {
    let mut first = [0; 32];
    first.copy_from_slice(&start[..32]);
    first
}

// The inputs of one message: the key and the nonce.
struct NoncedChaCha<'k, 'n> {
    key: &'k Key32,
    nonce: &'n Nonce,
}

impl<'k, 'n> OnePass for NoncedChaCha<'k, 'n> {
    type Stream = ChaStream;

    type Hash = Poly;

    fn mask(&self) -> ChaStream {
        ChaStream::new(self.key, self.nonce, 1)
    }

    fn hash(&self) -> Poly {
        Poly::new(&one_time_key(self.key, self.nonce))
    }

    fn tag(&self, digest: &Block) -> Tag {
        hash_as_tag(digest)
    }
}

// The inputs of one whole message: the key, the nonce, and the first blocks of the key stream, from counter 0 on.
struct BufferedChaCha<'a> {
    key: &'a Key32,
    nonce: &'a Nonce,
    start: &'a [u8],
}

impl<'a> BufferedChaCha<'a> {
    // Returns the tag over a ciphertext.
    #[inline(always)]
    fn tag_over(&self, aad: &[u8], body: &[u8]) -> Tag {
        let mut authenticator = Authenticator::empty(self.hash());
        authenticator.begin(aad);
        authenticator.update(body);
        hash_as_tag(&authenticator.digest())
    }

    // Seals a text that needs no more of the key stream than these blocks.
    #[inline(always)]
    fn seal_short(&self, aad: &[u8], text: &mut [u8]) -> Tag {
        xor_into(text, &self.start[64..64 + text.len()]);
        self.tag_over(aad, text)
    }

    // Opens a ciphertext that needs no more of the key stream than these blocks.
    #[inline(always)]
    fn open_short(&self, aad: &[u8], body: &mut [u8], tag: &Tag) -> Result<(), Fault> {
        let given = tag.bytes();
        if !same(self.tag_over(aad, body).bytes(), given) {
            return Err(Fault::TagMismatch);
        }
        xor_into(body, &self.start[64..64 + body.len()]);
        Ok(())
    }
}

impl<'a> OnePass for BufferedChaCha<'a> {
    type Stream = BufferedStream<'a>;

    type Hash = Poly;

    fn mask(&self) -> BufferedStream<'a> {
        BufferedStream::new(self.key, self.nonce, self.start)
    }

    // The one-time key is at the start of the block with counter 0 (RFC 8439, 2.6).
    fn hash(&self) -> Poly {
        Poly::new(&first_32(self.start))
    }

    fn tag(&self, digest: &Block) -> Tag {
        hash_as_tag(digest)
    }
}

impl Aead for ChaChaPoly {
    fn suite(&self) -> Suite {
        // The proof sees a cipher by its fields.
        let _key = &self.key;
        Suite::ChaCha20Poly1305
    }

    fn seal_fitting(&self, nonce: &Nonce, aad: &[u8], text: &mut [u8]) -> Tag {
        match BlocksAtOnce::for_text(text.len()) {
            BlocksAtOnce::Two => self.seal_at_once::<TwoBlocks>(nonce, aad, text),
            BlocksAtOnce::Three => self.seal_at_once::<ThreeBlocks>(nonce, aad, text),
            BlocksAtOnce::Four => self.seal_at_once::<FourBlocks>(nonce, aad, text),
            BlocksAtOnce::Five => self.seal_at_once::<FiveBlocks>(nonce, aad, text),
            BlocksAtOnce::Six => self.seal_at_once::<SixBlocks>(nonce, aad, text),
            BlocksAtOnce::Eight => self.seal_at_once::<EightBlocks>(nonce, aad, text),
        }
    }

    fn open_fitting(&self, nonce: &Nonce, aad: &[u8], body: &mut [u8], tag: &Tag) -> Result<(), Fault> {
        match BlocksAtOnce::for_text(body.len()) {
            BlocksAtOnce::Two => self.open_at_once::<TwoBlocks>(nonce, aad, body, tag),
            BlocksAtOnce::Three => self.open_at_once::<ThreeBlocks>(nonce, aad, body, tag),
            BlocksAtOnce::Four => self.open_at_once::<FourBlocks>(nonce, aad, body, tag),
            BlocksAtOnce::Five => self.open_at_once::<FiveBlocks>(nonce, aad, body, tag),
            BlocksAtOnce::Six => self.open_at_once::<SixBlocks>(nonce, aad, body, tag),
            BlocksAtOnce::Eight => self.open_at_once::<EightBlocks>(nonce, aad, body, tag),
        }
    }

    fn open_and_restore(&self, nonce: &Nonce, aad: &[u8], body: &mut [u8], tag: &Tag) -> Result<(), Fault> {
        if body.len() <= SEVEN_BLOCKS {
            return self.open_fitting(nonce, aad, body, tag);
        }
        let key = &self.key;
        open_and_restore(&NoncedChaCha { key, nonce }, aad, body, tag)
    }
}
