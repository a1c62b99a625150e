// Made from crates/aead/src/pieces/two_pass_state.rt by tools/erase: not to be edited.
//! The state of a sealing in two readings or of an opening in two passes, as plain numbers. The steps are
//! the same whether a cipher lends the keys or a [`crate::proved::aead::KeyAndNonce`].

use crate::proved::aead::pieces::keys::MessageKeys;
use crate::proved::aead::pieces::pass_state::{PassState, SumWords};
use crate::proved::aead::step::Order;
use crate::proved::aes::KnownBlock;
use crate::proved::octets::{Fault, Tag, same};

// Whether the text of a second reading has the length and the tag of the first one.
pub(in crate::proved::aead) fn repeats(
    keys: &MessageKeys,
    again: &PassState,
    first_length: u64,
    tag: &[u8; 16],
) -> bool {
    again.length == first_length && same(keys.tag(again).bytes(), tag)
}

/// The state of a sealing in two readings under AES-GCM-SIV, or of an opening in two passes under any suite, as plain numbers,
/// without the message's key and nonce. Each number may have any value.
///
/// Keep the numbers as secret as the key: whoever has them can forge sealings, as with those of a [`PassState`].
#[repr(C)]
#[derive(Clone, Copy)]
pub struct TwoPassState {
    /// The state of the reading or the pass, which [`crate::proved::aead::KeyAndNonce::begin`] sets before a message begins.
    pub pass: PassState,
    // The sum of the hash over the padded associated data, where both readings or passes begin.
    pub(in crate::proved::aead) start: SumWords,
    // The tag of the first text, in the second reading; or the tag of the sealing, in both passes.
    pub(in crate::proved::aead) tag: [u8; 16],
    // The length of the first reading or pass, in the second.
    pub(in crate::proved::aead) first: u64,
}

impl TwoPassState {
    /// All zeros.
    pub fn zeros() -> TwoPassState {
        TwoPassState { pass: PassState::zeros(), start: SumWords::zero(), tag: [0; 16], first: 0 }
    }

    // The state of a first reading or pass that begins in this initial state.
    fn first(pass: PassState, tag: &[u8; 16]) -> TwoPassState {
        TwoPassState { pass, start: pass.sum(), tag: *tag, first: 0 }
    }

    /// The state of the first reading of a sealing that begins in this initial state, with the empty text.
    #[inline(always)]
    pub fn first_reading(pass: PassState) -> TwoPassState {
        TwoPassState::first(pass, &[0; 16])
    }

    /// The state of the first pass of an opening that begins in this initial state, with no ciphertext, under the tag of the sealing.
    #[inline(always)]
    pub fn first_pass(pass: PassState, tag: &[u8; 16]) -> TwoPassState {
        TwoPassState::first(pass, tag)
    }

    // The state at the start of the second reading or pass, after a first one with this tag.
    fn second(&self, tag: &[u8; 16]) -> TwoPassState {
        TwoPassState { pass: self.pass.restarted(self.start), start: self.start, tag: *tag, first: self.pass.length }
    }

    // The limit of the second reading or pass in bytes: the length of the first, and no more than the limit of a text.
    #[inline(always)]
    fn second_limit(&self, keys: &MessageKeys) -> u64 {
        self.first.min(keys.text_limit())
    }

    // ---- a sealing in two readings

    /// Adds a piece, of any length, to the text in the first reading. `TextTooLong` if the text would be longer than the suite's
    /// limit: the state does not change then.
    #[inline(always)]
    pub fn absorb(&mut self, keys: &MessageKeys, piece: &[u8]) -> Result<(), Fault> {
        if !self.pass.has_room(keys.text_limit(), piece) {
            return Err(Fault::TextTooLong);
        }
        keys.take(&mut self.pass, piece);
        Ok(())
    }

    /// Ends the first reading, and returns the tag of its text, 16 bytes. The second reading begins.
    pub fn begin_second_reading(&mut self, keys: &MessageKeys) -> Tag {
        let tag = keys.tag(&self.pass);
        *self = self.second(tag.bytes());
        tag
    }

    /// Adds a piece, of any length, to the text in the second reading, and replaces it with its ciphertext. `known` is the block of
    /// AES that the text ends inside, if it is known. `SourceChanged` if that text would be longer than the first: the state, the
    /// piece and `known` do not change then.
    #[inline(always)]
    pub fn write(&mut self, keys: &MessageKeys, known: &mut KnownBlock, piece: &mut [u8]) -> Result<(), Fault> {
        if !self.pass.has_room(self.second_limit(keys), piece) {
            return Err(Fault::SourceChanged);
        }
        let tag = self.tag;
        keys.mask(&mut self.pass, known, Order::HashFirst, &tag, piece);
        Ok(())
    }

    /// Returns `Ok` if the second text has the length and the tag of the first, else `SourceChanged`: the ciphertext that
    /// [`TwoPassState::write`] wrote must then be thrown away.
    pub fn end_reading(&self, keys: &MessageKeys) -> Result<(), Fault> {
        if repeats(keys, &self.pass, self.first, &self.tag) { Ok(()) } else { Err(Fault::SourceChanged) }
    }

    // ---- an opening in two passes

    /// Authenticates a piece of the ciphertext, of any length, in the first pass. `TextTooLong` if the ciphertext would be longer than
    /// the suite's limit: the state does not change then.
    #[inline(always)]
    pub fn check(&mut self, keys: &MessageKeys, piece: &[u8]) -> Result<(), Fault> {
        if !self.pass.has_room(keys.text_limit(), piece) {
            return Err(Fault::TextTooLong);
        }
        let tag = self.tag;
        keys.check(&mut self.pass, &tag, piece);
        Ok(())
    }

    // Whether the bytes of the pass and the tag are a valid sealing.
    fn is_sealing(&self, keys: &MessageKeys) -> bool {
        same(keys.tag(&self.pass).bytes(), &self.tag)
    }

    /// Ends the first pass. `Ok` if it was over a valid sealing: the second pass begins. `TagMismatch` if authentication failed: the
    /// state does not change then, and must not be used any more.
    pub fn begin_second_pass(&mut self, keys: &MessageKeys) -> Result<(), Fault> {
        if !self.is_sealing(keys) {
            return Err(Fault::TagMismatch);
        }
        *self = self.second(&self.tag);
        Ok(())
    }

    /// Replaces a piece of the ciphertext, of any length, with its text in the second pass, and authenticates it. `known` is the block
    /// of AES that the ciphertext ends inside, if it is known. `SourceChanged` if the second pass would be longer than the first: the
    /// state, the piece and `known` do not change then.
    #[inline(always)]
    pub fn open(&mut self, keys: &MessageKeys, known: &mut KnownBlock, piece: &mut [u8]) -> Result<(), Fault> {
        if !self.pass.has_room(self.second_limit(keys), piece) {
            return Err(Fault::SourceChanged);
        }
        let tag = self.tag;
        keys.open(&mut self.pass, known, &tag, piece);
        Ok(())
    }

    /// Returns `Ok` if the second pass was over the ciphertext of the sealing, else `SourceChanged`: the text that
    /// [`TwoPassState::open`] wrote must then be thrown away.
    pub fn end_pass(&self, keys: &MessageKeys) -> Result<(), Fault> {
        if self.is_sealing(keys) { Ok(()) } else { Err(Fault::SourceChanged) }
    }
}
