//! Openings in pieces, in two passes.

use crate::Error;
use crate::error::result;
use crate::proved::capi::opener::{self, StoredOpener};
use crate::wiped::Wiped;
use core::fmt;

/// The first pass of an opening in pieces, under every suite, which gives no text: [`Key::opener`](crate::Key::opener), then
/// [`Opener::check`] for each piece of the ciphertext, then [`Opener::begin_second`]. The state is wiped when it is dropped.
#[must_use = "an opening that is not checked gives no text"]
pub struct Opener {
    pub(crate) state: Wiped<StoredOpener>,
}

/// The second pass, after the first was authenticated, which decrypts: [`CheckedOpener::update`] for each piece of the
/// ciphertext again, then [`CheckedOpener::finish`]. The two passes may be split in different ways. The state is wiped when it
/// is dropped.
#[must_use = "the text comes from the second pass, which `finish` ends"]
pub struct CheckedOpener {
    state: Wiped<StoredOpener>,
}

impl Opener {
    /// Takes the next piece of the ciphertext, of any length, and does not change it. The tag is not part of the ciphertext.
    /// `Ok` does not say that the sealing is valid: [`Opener::begin_second`] does.
    ///
    /// # Errors
    ///
    /// `TextTooLong`: the ciphertext would be longer than the suite's limit. The piece does not count, and a shorter one
    /// may follow.
    pub fn check(&mut self, piece: &[u8]) -> Result<(), Error> {
        result(opener::aeadkit_opener_check(&mut self.state, piece))
    }

    /// Ends the first pass, and returns the second.
    ///
    /// # Errors
    ///
    /// `TagMismatch`: authentication failed.
    pub fn begin_second(mut self) -> Result<CheckedOpener, Error> {
        result(opener::aeadkit_opener_begin_second(&mut self.state))?;
        Ok(CheckedOpener { state: self.state })
    }
}

impl CheckedOpener {
    /// Takes the next piece of the ciphertext, of any length: on success `piece` is its text, which may be used once
    /// [`CheckedOpener::finish`] returned `Ok`.
    ///
    /// # Errors
    ///
    /// `SourceChanged`: the second pass would be longer than the first. The piece is not changed and does not count.
    pub fn update(&mut self, piece: &mut [u8]) -> Result<(), Error> {
        result(opener::aeadkit_opener_update(&mut self.state, piece))
    }

    /// Ends the second pass.
    ///
    /// # Errors
    ///
    /// `SourceChanged`: authentication of the second pass failed. Throw away what `update` made.
    pub fn finish(mut self) -> Result<(), Error> {
        result(opener::aeadkit_opener_finish(&mut self.state))
    }
}

/// Shows nothing of the key.
impl fmt::Debug for Opener {
    fn fmt(&self, f: &mut fmt::Formatter<'_>) -> fmt::Result {
        f.write_str("Opener")
    }
}

/// Shows nothing of the key.
impl fmt::Debug for CheckedOpener {
    fn fmt(&self, f: &mut fmt::Formatter<'_>) -> fmt::Result {
        f.write_str("CheckedOpener")
    }
}
