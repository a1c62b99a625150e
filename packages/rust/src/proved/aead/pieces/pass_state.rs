// Made from crates/aead/src/pieces/pass_state.rt by tools/erase: not to be edited.
//! The state of a pass over a message as plain numbers: the sum of its hash, the bytes after the last whole block, and both
//! lengths. A caller in C has it in its own memory.

use crate::proved::aead::authenticator::Authenticator;
use crate::proved::aead::hashes::{HashKeys, TagHash, first_block, last_block};
use crate::proved::aead::pieces::keys::MessageKeys;
use crate::proved::aead::pieces::text_parts::take_text;
use crate::proved::aead::step::{MaskWith, Order, step};
use crate::proved::aes::KnownBlock;
use crate::proved::octets::{Block, Fault, Tag};

// 2^64.
const WORD: u128 = 0x1_0000_0000_0000_0000;

/// The state of a pass over a message as plain numbers, without the message's key and nonce. Each number may have any value.
///
/// Keep the numbers as secret as the key: whoever has them can forge sealings, under every suite. They give away the one-time key
/// of ChaCha20-Poly1305; the key of GHASH and the cipher of J0 under AES-GCM; or the authentication key of AES-GCM-SIV.
#[repr(C)]
#[derive(Clone, Copy)]
pub struct PassState {
    // What hash and tag of the message rest on: the one-time key of Poly1305; or the key of GHASH and the cipher of J0; or the key of
    // POLYVAL's multiplier and zeros.
    message_secret: [u8; 32],
    // The bytes after the last whole block of what is hashed, and zeros after them.
    rest: [u8; 16],
    // The sum over the whole blocks, in words of 64 bits. `high` is 0 under GHASH and POLYVAL.
    low: u64,
    middle: u64,
    high: u64,
    aad_length: u64,
    pub(in crate::proved::aead) length: u64,
}

/// The sum of a hash over whole blocks, in words of 64 bits.
#[repr(C)]
#[derive(Clone, Copy)]
pub(in crate::proved::aead) struct SumWords {
    low: u64,
    middle: u64,
    high: u64,
}

impl SumWords {
    // The sum of zeros.
    pub(in crate::proved::aead) fn zero() -> SumWords {
        SumWords { low: 0, middle: 0, high: 0 }
    }
}

impl PassState {
    /// All zeros.
    pub fn zeros() -> PassState {
        PassState { message_secret: [0; 32], rest: [0; 16], low: 0, middle: 0, high: 0, aad_length: 0, length: 0 }
    }

    // The state of an authenticator.
    #[inline(always)]
    fn of<H: TagHash>(secret: [u8; 32], authenticator: &Authenticator<H>) -> PassState {
        let (low, high) = authenticator.hash.sum();
        let last = authenticator.hash.rest();
        let mut rest = [0; 16];
        rest[..last.len()].copy_from_slice(last);
        PassState {
            message_secret: secret,
            rest,
            low: (low % WORD) as u64,
            middle: (low >> 64) as u64,
            high,
            aad_length: authenticator.aad_length,
            length: authenticator.length,
        }
    }

    // The lower 128 bits of the sum.
    fn low(&self) -> u128 {
        u128::from(self.low) + u128::from(self.middle) * WORD
    }

    // The authenticator with this state.
    #[inline(always)]
    fn authenticator<K: HashKeys>(&self, keys: &K) -> Authenticator<K::Hash> {
        let used = (self.length % 16) as usize;
        Authenticator {
            hash: keys.resumed(&self.message_secret, self.low(), self.high, &self.rest[..used]),
            aad_length: self.aad_length,
            length: self.length,
        }
    }

    // The key of the multiplier of GHASH or POLYVAL.
    pub(in crate::proved::aead) fn multiplier_key(&self) -> Block {
        first_block(&self.message_secret)
    }

    // The block that the tag of AES-GCM is masked with: the cipher of J0.
    pub(in crate::proved::aead) fn tag_mask(&self) -> Block {
        last_block(&self.message_secret)
    }

    // Whether the text so far and the piece are together within this limit.
    pub(in crate::proved::aead) fn has_room(&self, limit: u64, piece: &[u8]) -> bool {
        self.length <= limit && piece.len() as u64 <= limit - self.length
    }

    // The initial state without associated data. It needs no table of the hash key.
    #[inline(always)]
    pub(in crate::proved::aead) fn empty(secret: [u8; 32]) -> PassState {
        PassState { message_secret: secret, rest: [0; 16], low: 0, middle: 0, high: 0, aad_length: 0, length: 0 }
    }

    // The initial state for associated data.
    #[inline(always)]
    pub(in crate::proved::aead) fn initial<K: HashKeys>(keys: &K, secret: [u8; 32], aad: &[u8]) -> PassState {
        let mut authenticator = Authenticator::empty(keys.resumed(&secret, 0, 0, &[]));
        authenticator.begin(aad);
        PassState::of(secret, &authenticator)
    }

    // Masks a piece and authenticates it. The mask stands where the piece begins.
    #[inline(never)]
    pub(in crate::proved::aead) fn step<K: HashKeys, S: MaskWith<K::Hash>>(
        &mut self,
        keys: &K,
        mask: &mut S,
        order: Order,
        piece: &mut [u8],
    ) {
        let mut authenticator = self.authenticator(keys);
        step(order, mask, &mut authenticator, piece);
        *self = PassState::of(self.message_secret, &authenticator);
    }

    // Authenticates a piece.
    #[inline(never)]
    pub(in crate::proved::aead) fn take<K: HashKeys>(&mut self, keys: &K, piece: &[u8]) {
        let mut authenticator = self.authenticator(keys);
        authenticator.update(piece);
        *self = PassState::of(self.message_secret, &authenticator);
    }

    // Authenticates the text of a piece of a ciphertext. The mask stands where the piece begins.
    #[inline(never)]
    pub(in crate::proved::aead) fn take_text<K: HashKeys, S: MaskWith<K::Hash>>(
        &mut self,
        keys: &K,
        mask: &mut S,
        piece: &[u8],
    ) {
        let mut authenticator = self.authenticator(keys);
        take_text(mask, &mut authenticator, piece);
        *self = PassState::of(self.message_secret, &authenticator);
    }

    // Returns the hash of what was authenticated, of which the tag is made.
    #[inline(never)]
    pub(in crate::proved::aead) fn digest<K: HashKeys>(&self, keys: &K) -> Block {
        self.authenticator(keys).finish()
    }

    // The sum over the whole blocks.
    pub(in crate::proved::aead) fn sum(&self) -> SumWords {
        SumWords { low: self.low, middle: self.middle, high: self.high }
    }

    // The initial state for the same key, nonce and associated data. `start` is the sum over the associated data.
    pub(in crate::proved::aead) fn restarted(&self, start: SumWords) -> PassState {
        PassState {
            message_secret: self.message_secret,
            rest: [0; 16],
            low: start.low,
            middle: start.middle,
            high: start.high,
            aad_length: self.aad_length,
            length: 0,
        }
    }

    // ---- a text that is sealed in one reading

    /// Adds a piece, of any length, to a text that is sealed in one reading, and replaces it with its ciphertext. `known` is the block
    /// of AES that the text ends inside, if it is known. `TextTooLong` if the text would be longer than the suite's limit: the state,
    /// the piece and `known` do not change then.
    #[inline(always)]
    pub fn seal(&mut self, keys: &MessageKeys, known: &mut KnownBlock, piece: &mut [u8]) -> Result<(), Fault> {
        if !self.has_room(keys.text_limit(), piece) {
            return Err(Fault::TextTooLong);
        }
        keys.mask(self, known, Order::MaskFirst, &[0; 16], piece);
        Ok(())
    }

    /// Returns the tag of a text that is sealed in one reading, 16 bytes.
    #[inline(always)]
    pub fn tag_of_text(&self, keys: &MessageKeys) -> Tag {
        keys.tag(self)
    }
}
