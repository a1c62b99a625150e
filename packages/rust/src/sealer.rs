//! Sealings in pieces, in one reading.

use crate::error::result;
use crate::proved::capi::sealer::{self, StoredSealer};
use crate::wiped::Wiped;
use crate::{Error, TAG_BYTES, Tag};
use core::fmt;

/// A sealing in pieces, under ChaCha20-Poly1305 or AES-GCM: [`Key::sealer`](crate::Key::sealer), then [`Sealer::update`] for
/// each piece of the text, then [`Sealer::finish`].
///
/// The ciphertext of all pieces followed by the tag is what [`Key::seal`](crate::Key::seal) makes of the whole text, and does
/// not depend on how the text is split. The state is wiped when it is dropped.
///
/// Never use its nonce again, also if the sealing is dropped unfinished once it gave ciphertext: see
/// [`Key`](crate::Key#nonces). A fork copies a sealing: go on with it in one of the two processes.
#[must_use = "a sealing that is not finished has no tag"]
pub struct Sealer {
    pub(crate) state: Wiped<StoredSealer>,
}

impl Sealer {
    /// Adds a piece of any length to the text: on success `piece` is its ciphertext.
    ///
    /// # Errors
    ///
    /// `TextTooLong`: the text would be longer than the suite's limit. The piece is not changed and does not count, and a
    /// shorter one may follow.
    pub fn update(&mut self, piece: &mut [u8]) -> Result<(), Error> {
        result(sealer::aeadkit_sealer_update(&mut self.state, piece))
    }

    /// Ends the sealing, and returns the tag of the text.
    pub fn finish(mut self) -> Tag {
        let mut tag = [0; TAG_BYTES];
        result(sealer::aeadkit_sealer_finish(&mut self.state, &mut tag)).expect("the sealing was begun");
        Tag(tag)
    }
}

/// Shows nothing of the key.
impl fmt::Debug for Sealer {
    fn fmt(&self, f: &mut fmt::Formatter<'_>) -> fmt::Result {
        f.write_str("Sealer")
    }
}
