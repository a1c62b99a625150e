//! Sealings in pieces under AES-GCM-SIV, in two readings.

use crate::error::result;
use crate::proved::capi::siv::{self, StoredSiv};
use crate::wiped::Wiped;
use crate::{Error, TAG_BYTES, Tag};
use core::fmt;

/// The first reading of a sealing in pieces under AES-GCM-SIV, whose tag depends on the whole text and encrypts it:
/// [`Key::siv_sealer`](crate::Key::siv_sealer), then [`SivSealer::absorb`] for each piece of the text, then
/// [`SivSealer::begin_second`]. The state is wiped when it is dropped.
///
/// Never use its nonce again once it gave a tag: see [`Key`](crate::Key#nonces).
#[must_use = "a sealing that is not finished has no tag"]
pub struct SivSealer {
    pub(crate) state: Wiped<StoredSiv>,
}

/// The second reading, which encrypts the text: [`SivWriter::update`] for each piece again, then [`SivWriter::finish`].
///
/// The ciphertext of all pieces followed by the tag is what [`Key::seal`](crate::Key::seal) makes of the whole text. The two
/// readings may be split in different ways. The state is wiped when it is dropped. A fork copies it: go on with it in one of
/// the two processes.
#[must_use = "the ciphertext comes from the second reading, which `finish` ends"]
pub struct SivWriter {
    state: Wiped<StoredSiv>,
}

impl SivSealer {
    /// Adds a piece of any length to the text, and does not change the piece.
    ///
    /// # Errors
    ///
    /// `TextTooLong`: the text would be longer than the suite's limit. The piece does not count, and a shorter one may
    /// follow.
    pub fn absorb(&mut self, piece: &[u8]) -> Result<(), Error> {
        result(siv::aeadkit_siv_absorb(&mut self.state, piece))
    }

    /// Ends the first reading, and returns the tag of its text and the second reading.
    pub fn begin_second(mut self) -> (Tag, SivWriter) {
        let mut tag = [0; TAG_BYTES];
        result(siv::aeadkit_siv_begin_second(&mut self.state, &mut tag)).expect("the sealing was begun");
        (Tag(tag), SivWriter { state: self.state })
    }
}

impl SivWriter {
    /// Takes the next piece of the text, of any length: on success `piece` is its ciphertext, which may be used once
    /// [`SivWriter::finish`] returned `Ok`.
    ///
    /// # Errors
    ///
    /// `SourceChanged`: the second reading would be longer than the first. The piece is not changed and does not count.
    pub fn update(&mut self, piece: &mut [u8]) -> Result<(), Error> {
        result(siv::aeadkit_siv_update(&mut self.state, piece))
    }

    /// Ends the second reading.
    ///
    /// # Errors
    ///
    /// `SourceChanged`: its text had another length or another tag than the first. Throw away what `update` made.
    pub fn finish(mut self) -> Result<(), Error> {
        result(siv::aeadkit_siv_finish(&mut self.state))
    }
}

/// Shows nothing of the key.
impl fmt::Debug for SivSealer {
    fn fmt(&self, f: &mut fmt::Formatter<'_>) -> fmt::Result {
        f.write_str("SivSealer")
    }
}

/// Shows nothing of the key.
impl fmt::Debug for SivWriter {
    fn fmt(&self, f: &mut fmt::Formatter<'_>) -> fmt::Result {
        f.write_str("SivWriter")
    }
}
