// Made from crates/aead/src/derived_keys.rt by tools/erase: not to be edited.
//! The keys of a message of AES-GCM-SIV, which are derived from the key and the nonce (RFC 8452, 4).

use crate::proved::aead::gcm_siv::{GcmSiv, message_secret};
use crate::proved::aead::pieces::aes_pass;
use crate::proved::aead::pieces::keys::{AesKeys, CipherKeys, ExpandedKey, LentMul, MessageKeys};
use crate::proved::aead::pieces::pass_state::PassState;
use crate::proved::aead::suite::Suite;
use crate::proved::aes::AesKey;
use crate::proved::gf128::{Keyed128, PolyvalOrder, TableMul, reversed_mul_x};
use crate::proved::octets::{Block, Nonce, joined};

// Returns the first half of block `q` of concatenated blocks.
fn first_half(blocks: &[u8], q: usize) -> [u8; 8] {
    let mut half = [0; 8];
    half.copy_from_slice(&blocks[16 * q..16 * q + 8]);
    half
}

// Returns the block of a number and a nonce (RFC 8452, 4).
fn numbered(i: u32, nonce: &[u8; 12]) -> [u8; 16] {
    let mut block = [0; 16];
    block[..4].copy_from_slice(&i.to_le_bytes());
    block[4..].copy_from_slice(nonce);
    block
}

// Returns the blocks with the numbers 0 to 3.
fn first_numbered(nonce: &[u8; 12]) -> [u8; 64] {
    let front: [u8; 32] = joined(&numbered(0, nonce), &numbered(1, nonce));
    let back: [u8; 32] = joined(&numbered(2, nonce), &numbered(3, nonce));
    joined(&front, &back)
}

// Parts 0 to 3 of the derived keys, each the first half of an encrypted block (RFC 8452, 4). The four blocks are encrypted at
// once.
pub(in crate::proved::aead) struct KeyParts<'a> {
    key: &'a AesKey,
    nonce: &'a Nonce,
    blocks: [u8; 64],
}

impl<'a> KeyParts<'a> {
    // Derives parts 0 to 3 from a key and a nonce.
    pub(in crate::proved::aead) fn new(key: &'a AesKey, nonce: &'a Nonce) -> KeyParts<'a> {
        KeyParts { key, nonce, blocks: key.encrypt_four(&first_numbered(nonce.bytes())) }
    }

    // Returns part `i`, 8 bytes.
    fn at(&self, i: usize) -> [u8; 8] {
        first_half(&self.blocks, i)
    }
}

// Derives parts 4 and 5 of the keys, joined (RFC 8452, 4). Both blocks are encrypted at once.
fn last_parts(key: &AesKey, nonce: &Nonce) -> [u8; 16] {
    let bytes = nonce.bytes();
    let blocks = key.encrypt_two(&joined(&numbered(4, bytes), &numbered(5, bytes)));
    joined(&first_half(&blocks, 0), &first_half(&blocks, 1))
}

// Returns the encryption key of 16 bytes: parts 2 and 3 (RFC 8452, 4).
pub(in crate::proved::aead) fn short_encryption_key(parts: &KeyParts) -> [u8; 16] {
    joined(&parts.at(2), &parts.at(3))
}

// Returns the encryption key of 32 bytes: parts 2 to 5 (RFC 8452, 4).
pub(in crate::proved::aead) fn long_encryption_key(parts: &KeyParts) -> [u8; 32] {
    let first: [u8; 16] = joined(&parts.at(2), &parts.at(3));
    joined(&first, &last_parts(parts.key, parts.nonce))
}

// Returns the key of POLYVAL's multiplier in GHASH's field (RFC 8452, appendix A). POLYVAL's key is parts 0 and 1 (RFC 8452, 4).
pub(in crate::proved::aead) fn multiplier_key(parts: &KeyParts) -> Block {
    let key = Block::new(joined(&parts.at(0), &parts.at(1)));
    reversed_mul_x(&key)
}

// The keys of one message.
pub(in crate::proved::aead) struct DerivedKeys {
    // The key of POLYVAL's multiplier in GHASH's field.
    pub(in crate::proved::aead) multiplier_key: Block,
    pub(in crate::proved::aead) encryption: AesKey,
}

impl DerivedKeys {
    // Derives the keys of a message from a suite's key and a nonce (RFC 8452, 4).
    pub(in crate::proved::aead) fn new(suite: Suite, key: &AesKey, nonce: &Nonce) -> DerivedKeys {
        let parts = KeyParts::new(key, nonce);
        let multiplier_key = multiplier_key(&parts);
        let encryption = match suite {
            Suite::Aes128GcmSiv => AesKey::expanded(&short_encryption_key(&parts)),
            Suite::Aes256GcmSiv => AesKey::expanded(&long_encryption_key(&parts)),
            Suite::ChaCha20Poly1305 | Suite::Aes128Gcm | Suite::Aes192Gcm | Suite::Aes256Gcm => unreachable!(),
        };
        DerivedKeys { multiplier_key, encryption }
    }

    // Lends the keys of the message with this nonce, with a multiplier by the hash key.
    pub(in crate::proved::aead) fn message_keys<'a>(
        &'a self,
        nonce: &Nonce,
        multiplier: LentMul<'a>,
    ) -> MessageKeys<'a> {
        let key = &self.encryption;
        MessageKeys {
            cipher: CipherKeys::Siv(AesKeys::Expanded(ExpandedKey { key, multiplier })),
            nonce: *nonce.bytes(),
        }
    }

    // Returns the initial state for associated data.
    pub(in crate::proved::aead) fn initial_state(&self, aad: &[u8]) -> PassState {
        aes_pass::initial_state::<PolyvalOrder>(message_secret(&self.multiplier_key), aad)
    }
}

// The keys of a message and its nonce, with a multiplier by the hash key.
pub(in crate::proved::aead) struct SivKeys {
    derived: DerivedKeys,
    // The small table of the hash key, for short pieces.
    multiplier: TableMul,
    nonce: Nonce,
}

impl SivKeys {
    // Derives the keys of the message with this nonce.
    pub(in crate::proved::aead) fn new(cipher: &GcmSiv, nonce: &Nonce) -> SivKeys {
        let derived = cipher.derive(nonce);
        SivKeys { multiplier: TableMul::of(&derived.multiplier_key), derived, nonce: *nonce }
    }

    // Lends the keys for a step.
    pub(in crate::proved::aead) fn keys<'a>(&'a self) -> MessageKeys<'a> {
        self.derived.message_keys(&self.nonce, LentMul::Table(&self.multiplier))
    }

    // Returns the initial state for associated data.
    pub(in crate::proved::aead) fn initial_state(&self, aad: &[u8]) -> PassState {
        self.derived.initial_state(aad)
    }
}
