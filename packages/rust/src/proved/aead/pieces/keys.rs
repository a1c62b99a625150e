// Made from crates/aead/src/pieces/keys.rt by tools/erase: not to be edited.
//! The keys of a message with its nonce, and the steps of a pass over the message under them, in any suite. A cipher or a state
//! lends the keys for a step: either a key schedule and a multiplier by the hash key, or the bytes of the key.

use crate::proved::aead::hashes::PolyKeys;
use crate::proved::aead::pieces::aes_pass;
use crate::proved::aead::pieces::pass_state::PassState;
use crate::proved::aead::step::Order;
use crate::proved::aead::suite::{Construction, Suite};
use crate::proved::aead::{chacha_poly, gcm, gcm_siv};
use crate::proved::aes::{AesKey, KnownBlock};
use crate::proved::gf128::{GhashOrder, HashOrder, Multiply, PolyvalOrder, TableMul, WideMul};
use crate::proved::octets::{Block, Key32, Nonce, Tag};

// A multiplier by the hash key: the small table, for pieces of any length, or the tables of four powers, for streams.
#[derive(Clone, Copy)]
pub(in crate::proved::aead) enum LentMul<'a> {
    Table(&'a TableMul),
    Wide(&'a WideMul),
}

impl<'a> Multiply for LentMul<'a> {
    #[inline(always)]
    fn times_word(&self, x: u128) -> u128 {
        match self {
            LentMul::Table(multiplier) => multiplier.times_word(x),
            LentMul::Wide(multiplier) => multiplier.times_word(x),
        }
    }

    #[inline(always)]
    fn times_all<O: HashOrder>(&self, sum: u128, blocks: &[[u8; 16]]) -> u128 {
        match self {
            LentMul::Table(multiplier) => multiplier.times_all::<O>(sum, blocks),
            LentMul::Wide(multiplier) => multiplier.times_all::<O>(sum, blocks),
        }
    }
}

// The schedule of an AES key, with a multiplier by the hash key.
#[derive(Clone, Copy)]
pub(in crate::proved::aead) struct ExpandedKey<'a> {
    pub(in crate::proved::aead) key: &'a AesKey,
    pub(in crate::proved::aead) multiplier: LentMul<'a>,
}

// The bytes of a key, and zeros after them.
#[derive(Clone, Copy)]
pub(in crate::proved::aead) struct KeyBytes<'a> {
    pub(in crate::proved::aead) suite: Suite,
    pub(in crate::proved::aead) key: &'a [u8; 32],
}

impl<'a> KeyBytes<'a> {
    // The schedule of the key.
    pub(in crate::proved::aead) fn schedule(&self) -> AesKey {
        AesKey::expanded(&self.key[..self.suite.key_length()])
    }
}

// An AES key for a step, which makes the schedule and the table that it needs if it has only the bytes.
#[derive(Clone, Copy)]
pub(in crate::proved::aead) enum AesKeys<'a> {
    Expanded(ExpandedKey<'a>),
    Bytes(KeyBytes<'a>),
}

// The key that a message is encrypted with. Under AES-GCM-SIV it is the message's own.
#[derive(Clone, Copy)]
pub(in crate::proved::aead) enum CipherKeys<'a> {
    ChaCha(&'a [u8; 32]),
    Gcm(AesKeys<'a>),
    Siv(AesKeys<'a>),
}

/// The keys of a message and its nonce, lent for a step of its state by [`crate::proved::aead::KeyAndNonce::keys`].
#[derive(Clone, Copy)]
pub struct MessageKeys<'a> {
    pub(in crate::proved::aead) cipher: CipherKeys<'a>,
    pub(in crate::proved::aead) nonce: [u8; 12],
}

// Masks and authenticates a piece under ChaCha20-Poly1305.
#[inline(never)]
fn mask_chacha(state: &mut PassState, key: &[u8; 32], nonce: &Nonce, order: Order, piece: &mut [u8]) {
    let mut mask = chacha_poly::mask_at(&Key32::new(*key), nonce, state.length);
    state.step(&PolyKeys, &mut mask, order, piece);
}

// Returns the tag of a message of AES-GCM-SIV under the bytes of its encryption key. Only this call has the key schedule on its stack.
#[inline(never)]
fn siv_tag_anew(bytes: KeyBytes, nonce: &Nonce, digest: &Block) -> Tag {
    gcm_siv::encrypted_tag(&bytes.schedule(), nonce, digest)
}

// Returns the tag of a message of AES-GCM-SIV.
#[inline(always)]
fn siv_tag(keys: AesKeys, nonce: &Nonce, digest: &Block) -> Tag {
    match keys {
        AesKeys::Expanded(keys) => gcm_siv::encrypted_tag(keys.key, nonce, digest),
        AesKeys::Bytes(bytes) => siv_tag_anew(bytes, nonce, digest),
    }
}

impl<'a> MessageKeys<'a> {
    // The construction that the keys are for.
    #[inline(always)]
    fn construction(&self) -> Construction {
        match self.cipher {
            CipherKeys::ChaCha(_) => Construction::ChaChaPoly,
            CipherKeys::Gcm(_) => Construction::Gcm,
            CipherKeys::Siv(_) => Construction::GcmSiv,
        }
    }

    // The limit of a text in bytes.
    #[inline(always)]
    pub(in crate::proved::aead) fn text_limit(&self) -> u64 {
        self.construction().text_limit()
    }

    // Masks a piece of the message with this tag and authenticates it. Only under AES-GCM-SIV does the mask depend on the tag. If
    // the piece begins inside the block of AES that is known, this block is not encrypted again; `known` becomes the block that
    // the piece ends inside.
    #[inline(always)]
    pub(in crate::proved::aead) fn mask(
        &self,
        state: &mut PassState,
        known: &mut KnownBlock,
        order: Order,
        tag: &[u8; 16],
        piece: &mut [u8],
    ) {
        let nonce = Nonce::new(self.nonce);
        match self.cipher {
            CipherKeys::ChaCha(key) => mask_chacha(state, key, &nonce, order, piece),
            CipherKeys::Gcm(keys) => {
                aes_pass::mask::<GhashOrder>(state, keys, &nonce, known, order, tag, piece);
            }
            CipherKeys::Siv(keys) => {
                aes_pass::mask::<PolyvalOrder>(state, keys, &nonce, known, order, tag, piece);
            }
        }
    }

    // Authenticates a piece.
    #[inline(always)]
    pub(in crate::proved::aead) fn take(&self, state: &mut PassState, piece: &[u8]) {
        match self.cipher {
            CipherKeys::ChaCha(_) => state.take(&PolyKeys, piece),
            CipherKeys::Gcm(keys) => aes_pass::take::<GhashOrder>(state, keys, piece),
            CipherKeys::Siv(keys) => aes_pass::take::<PolyvalOrder>(state, keys, piece),
        }
    }

    // Authenticates a piece of the ciphertext with this tag, or under AES-GCM-SIV the piece's text. The piece stays as it is.
    #[inline(always)]
    pub(in crate::proved::aead) fn check(&self, state: &mut PassState, tag: &[u8; 16], piece: &[u8]) {
        match self.cipher {
            CipherKeys::Siv(keys) => {
                let nonce = Nonce::new(self.nonce);
                aes_pass::take_text::<PolyvalOrder>(state, keys, &nonce, tag, piece);
            }
            CipherKeys::ChaCha(_) | CipherKeys::Gcm(_) => self.take(state, piece),
        }
    }

    // The order in which a ciphertext is decrypted and authenticated.
    #[inline(always)]
    pub(in crate::proved::aead) fn order_of_opening(&self) -> Order {
        match self.construction() {
            Construction::GcmSiv => Order::MaskFirst,
            Construction::ChaChaPoly | Construction::Gcm => Order::HashFirst,
        }
    }

    // Decrypts a piece of the ciphertext with this tag, and authenticates it.
    #[inline(always)]
    pub(in crate::proved::aead) fn open(
        &self,
        state: &mut PassState,
        known: &mut KnownBlock,
        tag: &[u8; 16],
        piece: &mut [u8],
    ) {
        self.mask(state, known, self.order_of_opening(), tag, piece);
    }

    // Returns the tag of what was authenticated.
    #[inline(always)]
    pub(in crate::proved::aead) fn tag(&self, state: &PassState) -> Tag {
        match self.cipher {
            CipherKeys::ChaCha(_) => chacha_poly::hash_as_tag(&state.digest(&PolyKeys)),
            CipherKeys::Gcm(keys) => {
                let digest = aes_pass::digest::<GhashOrder>(state, keys);
                gcm::masked_tag(&state.tag_mask(), &digest)
            }
            CipherKeys::Siv(keys) => {
                let digest = aes_pass::digest::<PolyvalOrder>(state, keys);
                siv_tag(keys, &Nonce::new(self.nonce), &digest)
            }
        }
    }
}
