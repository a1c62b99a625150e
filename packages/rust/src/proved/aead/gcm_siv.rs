// Made from crates/aead/src/gcm_siv.rt by tools/erase: not to be edited.
//! The cipher AES-GCM-SIV (RFC 8452, 4 and 5). An authentication key and an encryption key are derived for each message. The
//! tag is over the text, and the first counter block of the mask is made from the tag.

use crate::proved::aead::aead::Aead;
use crate::proved::aead::authenticator::Authenticator;
use crate::proved::aead::derived_keys::DerivedKeys;
use crate::proved::aead::mask::MaskStream;
use crate::proved::aead::step::{Order, step};
use crate::proved::aead::suite::Suite;
use crate::proved::aes::{AesKey, CtrLe};
use crate::proved::gf128::{Keyed128, Polyval, TableMul};
use crate::proved::octets::{Block, Fault, Nonce, Tag, joined, same, xor_into};

/// AES-GCM-SIV under a key of 16 or 32 bytes (RFC 8452). Opening in place decrypts before it can
/// authenticate, and encrypts again after `TagMismatch`. Contracts see its suite and key.
pub struct GcmSiv {
    key: AesKey,
    suite: Suite,
}

impl GcmSiv {
    /// AES-GCM-SIV of one of its two suites, under a key of the suite's length, 16 or 32 bytes.
    #[inline(always)]
    pub fn new(suite: Suite, key: AesKey) -> GcmSiv {
        GcmSiv { key, suite }
    }

    // Returns the key from which those of the messages are derived.
    pub(in crate::proved::aead) fn key(&self) -> &AesKey {
        &self.key
    }

    // Derives the keys of a message.
    pub(in crate::proved::aead) fn derive(&self, nonce: &Nonce) -> DerivedKeys {
        DerivedKeys::new(self.suite, &self.key, nonce)
    }
}

// Returns the first counter block of the message with this tag (RFC 8452, 4).
pub(in crate::proved::aead) fn counter_block(tag: &[u8; 16]) -> [u8; 16] {
    let mut block = *tag;
    block[15] |= 0x80;
    block
}

// Returns the mask of the message with this tag (RFC 8452, 4).
#[inline(always)]
pub(in crate::proved::aead) fn mask_of_tag<'k>(encryption: &'k AesKey, tag: &Tag) -> CtrLe<'k> {
    CtrLe::new(encryption, &Block::new(counter_block(tag.bytes())))
}

// Returns the secret that the state of a message holds: the key of POLYVAL's multiplier, and zeros.
pub(in crate::proved::aead) fn message_secret(multiplier_key: &Block) -> [u8; 32] {
    joined(multiplier_key.bytes(), &[0; 16])
}

// Returns the block that is encrypted to the tag (RFC 8452, 4).
#[inline(always)]
fn tag_block(hash: &[u8; 16], nonce: &[u8; 12]) -> [u8; 16] {
    let mut block = *hash;
    xor_into(&mut block[..12], nonce);
    block[15] &= 0x7f;
    block
}

// Returns the tag: the cipher of a block that the hash and the nonce give (RFC 8452, 4).
#[inline(always)]
pub(in crate::proved::aead) fn encrypted_tag(encryption: &AesKey, nonce: &Nonce, digest: &Block) -> Tag {
    let block = Block::new(tag_block(digest.bytes(), nonce.bytes()));
    Tag::new(*encryption.encrypt_in_registers(&block).bytes())
}

impl Aead for GcmSiv {
    fn suite(&self) -> Suite {
        self.suite
    }

    fn seal_fitting(&self, nonce: &Nonce, aad: &[u8], text: &mut [u8]) -> Tag {
        let keys = self.derive(nonce);
        let multiplier = TableMul::of(&keys.multiplier_key);
        let mut authenticator = Authenticator::empty(Polyval::with(&multiplier));
        authenticator.begin(aad);
        authenticator.update(text);
        let tag = encrypted_tag(&keys.encryption, nonce, &authenticator.digest());
        mask_of_tag(&keys.encryption, &tag).apply_to(text);
        tag
    }

    fn open_fitting(&self, nonce: &Nonce, aad: &[u8], body: &mut [u8], tag: &Tag) -> Result<(), Fault> {
        let keys = self.derive(nonce);
        let multiplier = TableMul::of(&keys.multiplier_key);
        let given = tag.bytes();
        let mut mask = mask_of_tag(&keys.encryption, tag);
        let mut authenticator = Authenticator::empty(Polyval::with(&multiplier));
        authenticator.begin(aad);
        step(Order::MaskFirst, &mut mask, &mut authenticator, body);
        let found = encrypted_tag(&keys.encryption, nonce, &authenticator.digest());
        if same(found.bytes(), given) {
            return Ok(());
        }
        mask_of_tag(&keys.encryption, tag).apply_to(body);
        Err(Fault::TagMismatch)
    }
}
