// Made from crates/aead/src/engine/measure.rt by tools/erase: not to be edited.
//! The first of the three readings of the stream opener, which measures the sealing: its length and its last 16 bytes.

use crate::proved::aead::engine::passes::{Discard, pass_body};
use crate::proved::aead::engine::stage::Stage;
use crate::proved::octets::{Fault, Intake, Tag};

// The length of a reading and its last 16 bytes.
pub(in crate::proved::aead) struct Measured {
    pub(in crate::proved::aead) length: u64,
    pub(in crate::proved::aead) tag: Tag,
}

// Updates `last` to the last 16 bytes of the reading after a piece.
fn slide(last: &mut [u8; 16], piece: &[u8]) {
    let n = piece.len();
    if n >= 16 {
        last.copy_from_slice(&piece[n - 16..]);
    } else {
        last.rotate_left(n);
        last[16 - n..].copy_from_slice(piece);
    }
}

// The last 16 bytes of the pieces so far, after zeros while there are fewer.
struct Last {
    bytes: [u8; 16],
}

// The pieces stay as they are, and may be those of any message.
impl Stage for Last {
    fn take_in(&mut self, piece: &mut [u8]) {
        slide(&mut self.bytes, piece);
    }
}

impl Measured {
    // Measures a reading by taking it to its end. Faults: `TextTooLong` as soon as more than `limit` and 16 bytes were taken,
    // and no byte is taken after that; `TooShort` if there are fewer than 16; `Read` if the reading failed.
    pub(in crate::proved::aead) fn of<I: Intake>(intake: &mut I, limit: u64) -> Result<Measured, Fault> {
        let mut last = Last { bytes: [0; 16] };
        let length = match pass_body(intake, &mut last, limit + 17, &mut Discard) {
            Ok(length) => length,
            Err(_) => return Err(Fault::Read),
        };
        if length > limit + 16 {
            return Err(Fault::TextTooLong);
        }
        if length < 16 {
            return Err(Fault::TooShort);
        }
        Ok(Measured { length, tag: Tag::new(last.bytes) })
    }
}
