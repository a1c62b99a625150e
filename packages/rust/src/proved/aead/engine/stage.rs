// Made from crates/aead/src/engine/stage.rt by tools/erase: not to be edited.
//! The stages of a pass over a reading: what is done with each piece. Two of them are here, and `measure` has the third.

use crate::proved::aead::pieces::keys::MessageKeys;
use crate::proved::aead::pieces::pass_state::PassState;
use crate::proved::aead::step::Order;
use crate::proved::aes::KnownBlock;

// The stage of a pass, between the reading and the outlet: it takes in each piece, and may mask it before it is given.
pub(in crate::proved::aead) trait Stage {
    // Takes in the next piece, and XORs the mask into it.
    fn take_in(&mut self, piece: &mut [u8]);
}

// The keys of a message and the state of its pass. Each piece is masked in place and authenticated, in this order.
pub(in crate::proved::aead) struct Masking<'a> {
    pub(in crate::proved::aead) keys: &'a MessageKeys<'a>,
    pub(in crate::proved::aead) state: PassState,
    pub(in crate::proved::aead) order: Order,
    // The tag of the message, or zeros where the mask does not depend on it.
    pub(in crate::proved::aead) tag: [u8; 16],
}

// Each piece begins at a block of AES, since only the last one does not fill the buffer: no block is known before it.
impl<'a> Stage for Masking<'a> {
    fn take_in(&mut self, piece: &mut [u8]) {
        let mut known = KnownBlock::none();
        self.keys.mask(&mut self.state, &mut known, self.order, &self.tag, piece);
    }
}

// The keys of a message and the state of its pass. The pieces are authenticated, and stay as they are.
pub(in crate::proved::aead) struct Reading<'a> {
    pub(in crate::proved::aead) keys: &'a MessageKeys<'a>,
    pub(in crate::proved::aead) state: PassState,
}

impl<'a> Stage for Reading<'a> {
    fn take_in(&mut self, piece: &mut [u8]) {
        self.keys.take(&mut self.state, piece);
    }
}
