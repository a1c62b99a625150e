// Made from crates/aead/src/one_pass.rt by tools/erase: not to be edited.
//! The construction whose tag is over the ciphertext: ChaCha20-Poly1305 (RFC 8439, 2.8) and AES-GCM (SP 800-38D, 7).
//! Short texts have a way of their own in `gcm` and in `chacha_poly`: the same steps in the same order as `seal_whole` and
//! `open_whole`, so a change to one is made to all three.

use crate::proved::aead::authenticator::Authenticator;
use crate::proved::aead::hashes::TagHash;
use crate::proved::aead::mask::MaskStream;
use crate::proved::aead::step::{MaskWith, Order, step};
use crate::proved::octets::{Block, Fault, Tag, same};

// A message under a cipher and a nonce: it gives the mask and the hash of what is authenticated, and makes the tag of the hash. The
// mask does not depend on the tag.
pub(in crate::proved::aead) trait OnePass {
    type Hash: TagHash;

    type Stream: MaskWith<Self::Hash>;

    // Returns the mask.
    fn mask(&self) -> Self::Stream;

    // Returns the hash, before any byte is taken in.
    fn hash(&self) -> Self::Hash;

    // Returns the tag, from the hash of what is authenticated.
    fn tag(&self, digest: &Block) -> Tag;
}

// Encrypts a text in place, and returns the tag over the ciphertext.
pub(in crate::proved::aead) fn seal_whole<N: OnePass>(message: &N, aad: &[u8], text: &mut [u8]) -> Tag {
    let mut mask = message.mask();
    let mut authenticator = Authenticator::empty(message.hash());
    authenticator.begin(aad);
    step(Order::MaskFirst, &mut mask, &mut authenticator, text);
    message.tag(&authenticator.digest())
}

// Authenticates a ciphertext, and then decrypts it in place. If authentication fails, every byte is as it was.
pub(in crate::proved::aead) fn open_whole<N: OnePass>(
    message: &N,
    aad: &[u8],
    body: &mut [u8],
    tag: &Tag,
) -> Result<(), Fault> {
    let given = tag.bytes();
    let mut authenticator = Authenticator::empty(message.hash());
    authenticator.begin(aad);
    authenticator.update(body);
    if !same(message.tag(&authenticator.digest()).bytes(), given) {
        return Err(Fault::TagMismatch);
    }
    message.mask().apply_to(body);
    Ok(())
}

// Decrypts a ciphertext in place while it is authenticated. On error the bytes are what the ciphertext would open to.
fn decrypt_and_authenticate<N: OnePass>(message: &N, aad: &[u8], body: &mut [u8], tag: &Tag) -> Result<(), Fault> {
    let given = tag.bytes();
    let mut mask = message.mask();
    let mut authenticator = Authenticator::empty(message.hash());
    authenticator.begin(aad);
    step(Order::HashFirst, &mut mask, &mut authenticator, body);
    if same(message.tag(&authenticator.digest()).bytes(), given) { Ok(()) } else { Err(Fault::TagMismatch) }
}

// Decrypts a ciphertext in place while it is authenticated. If authentication fails, the mask is XORed in again, so that every
// byte is as it was.
pub(in crate::proved::aead) fn open_and_restore<N: OnePass>(
    message: &N,
    aad: &[u8],
    body: &mut [u8],
    tag: &Tag,
) -> Result<(), Fault> {
    match decrypt_and_authenticate(message, aad, body, tag) {
        Ok(()) => Ok(()),
        Err(fault) => {
            message.mask().apply_to(body);
            Err(fault)
        }
    }
}
