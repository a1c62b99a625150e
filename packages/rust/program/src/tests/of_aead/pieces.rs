// Made from crates/aeadkit/src/tests/of_aead/pieces.rt by tools/erase: not to be edited.
//! Sealing and opening piece by piece.
use super::super::digits::{bytes, flip};
use super::super::published::{CHACHA, GCM_4, GCM_SIV, Vector};
use super::super::shows;
use super::samples::{Sample, are_sealed, one_pass, sample_of, two_pass};
use crate::kit::alloc::Global;
use crate::kit::{Abort, Alloc, HostRuntime};
use aeadkit::internals::aead::{Aead, OpenWriter, Opener, Sealer, SivAbsorb, SivWriter};
use aeadkit::internals::octets::{Fault, Tag};

// Seals a text in pieces of these lengths, and compares the sealing with the published one.
fn is_sealed(rt: &impl Abort, sample: &Sample, text: &mut [u8], lengths: &[usize]) {
    let cipher = one_pass(&sample.cipher).expect("one reading");
    let mut sealer = Sealer::new(cipher, &sample.nonce, &sample.aad).expect("a sealer");
    let mut at = 0usize;
    for length in lengths {
        let end = at.saturating_add(*length).min(text.len());
        shows(rt, sealer.update(&mut text[at.min(end)..end]).is_ok(), "a piece");
        at = end;
    }
    let tag = sealer.finish();
    shows(rt, are_sealed(text, &tag, &sample.sealed), "a sealing");
}

// A text in two pieces, cut at each place, and one in pieces that end before, at and after a block boundary.
#[test]
fn sealer_takes_any_pieces() {
    let rt = HostRuntime;
    let sample = sample_of(&rt, CHACHA);
    for cut in 0..115usize {
        let mut text = bytes(&rt, Vector::of(CHACHA).text);
        is_sealed(&rt, &sample, &mut text, &[cut, 114 - cut]);
    }
    let mut text = bytes(&rt, Vector::of(GCM_4).text);
    is_sealed(&rt, &sample_of(&rt, GCM_4), &mut text, &[1, 15, 0, 17, 27]);
}

// Reads a text for the first time, in pieces of 3, 0 and 5 bytes. Returns the tag, and the writer that encrypts the
// second reading.
fn absorbed(rt: &impl Abort, sample: &Sample) -> (Tag, SivWriter) {
    let cipher = two_pass(&sample.cipher).expect("two readings");
    let mut absorb = SivAbsorb::new(cipher, &sample.nonce, &sample.aad).expect("a state");
    for piece in [[1, 0, 0].as_slice(), &[], &[0; 5]] {
        shows(rt, absorb.update(piece).is_ok(), "a piece");
    }
    absorb.finish()
}

// Encrypts a second reading in pieces of 3 bytes, 0 bytes and the rest. The result at its end is `due`, and if that is
// `Ok`, the sealing is the published one. Bytes past the length of the first reading are refused and left as they were,
// and they do not change the end.
fn ends(rt: &impl Abort, sample: &Sample, second: &mut [u8], due: Result<(), Fault>) {
    let (tag, mut writer) = absorbed(rt, sample);
    let mut past = [7; 2];
    let past = &mut past[..9usize.saturating_sub(second.len()).min(2)];
    let (front, back) = second.split_at_mut(second.len().min(3));
    let are_taken = writer.update(front).is_ok() && writer.update(&mut []).is_ok();
    shows(rt, are_taken && writer.update(back).is_ok(), "a piece");
    let refused = writer.update(past) == Err(Fault::SourceChanged);
    shows(rt, refused && [7; 2].starts_with(past), "bytes past the text");
    shows(rt, writer.finish() == due, "the end");
    let is_sealing = are_sealed(second, &tag, &sample.sealed);
    shows(rt, due.is_err() || is_sealing, "a sealing");
}

// A second reading of the same text agrees. One of another text or of a shorter one does not.
#[test]
fn second_readings() {
    let rt = HostRuntime;
    let sample = sample_of(&rt, GCM_SIV);
    let changed = Err(Fault::SourceChanged);
    ends(&rt, &sample, &mut [1, 0, 0, 0, 0, 0, 0, 0], Ok(()));
    ends(&rt, &sample, &mut [1, 0, 0, 0, 0, 0, 0, 1], changed);
    ends(&rt, &sample, &mut [1, 0, 0, 0, 0, 0, 0], changed);
}

// The writer for the second pass over a ciphertext. The first pass reads all but the last byte, and then the last byte.
fn checked<'a>(rt: &impl Abort, sample: &'a Sample, body: &[u8], tag: &Tag) -> Result<OpenWriter<'a>, Fault> {
    let mut opener = Opener::new(&sample.cipher, &sample.nonce, &sample.aad, tag).expect("a state");
    let (front, back) = body.split_at(body.len().saturating_sub(1));
    shows(rt, opener.update(front).is_ok(), "a piece");
    shows(rt, opener.update(back).is_ok(), "a piece");
    opener.finish()
}

// Opens a published sealing in pieces to its text. A bit that is flipped before the first pass is noticed, and so is a second pass over other bytes. A byte past the length of the
// first pass is refused.
fn is_opened(rt: &(impl Abort + Alloc<A = Global>), line: &str) {
    let sample = sample_of(rt, line);
    let mut body = bytes(rt, Vector::of(line).text);
    let tag = sample.cipher.seal_in_place(&sample.nonce, &sample.aad, &mut body).expect("a sealing");
    shows(rt, are_sealed(&body, &tag, &sample.sealed), "a sealing");
    flip(&mut body, 9);
    let refused = checked(rt, &sample, &body, &tag);
    shows(rt, refused.is_err(), "a changed ciphertext");
    flip(&mut body, 9);
    let mut changed = checked(rt, &sample, &body, &tag).expect("a first pass");
    let mut writer = checked(rt, &sample, &body, &tag).expect("a first pass");
    let length = body.len();
    let (front, back) = body.split_at_mut(length.min(3));
    shows(rt, writer.update(front).is_ok(), "a piece");
    shows(rt, writer.update(back).is_ok(), "a piece");
    let past = writer.update(&mut [0]) == Err(Fault::SourceChanged);
    shows(rt, past, "a byte past the ciphertext");
    shows(rt, writer.finish().is_ok(), "the same ciphertext");
    shows(rt, body.as_slice() == sample.text.as_slice(), "the text");
    shows(rt, changed.update(&mut body).is_ok(), "a piece");
    let refused = changed.finish() == Err(Fault::SourceChanged);
    shows(rt, refused, "another second pass");
}

// Openings under each construction.
#[test]
fn openings_in_two_passes() {
    let rt = HostRuntime;
    for line in [CHACHA, GCM_4, GCM_SIV] {
        is_opened(&rt, line);
    }
}
