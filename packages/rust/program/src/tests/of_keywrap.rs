// Made from crates/aeadkit/src/tests/of_keywrap.rt by tools/erase: not to be edited.
//! The calls of `keywrap` in place, without padding and with it.
use super::digits::{bytes, flip};
use super::published::{PADDED, WRAPPINGS, Wrapping};
use super::shows;
use crate::kit::alloc::{Global, Vec};
use crate::kit::{Abort, Alloc, HostRuntime};
use aeadkit::internals::aes::AesKey;
use aeadkit::internals::keywrap::{unwrap_in_place, unwrap_padded_in_place, wrap_in_place, wrap_padded_in_place};
use aeadkit::internals::octets::Fault;

// A published wrapping.
struct Sample {
    key: AesKey,
    is_padded: bool,
    text: Vec<u8>,
    wrapped: Vec<u8>,
}

// The sample that a line of `published` describes.
fn sample_of(rt: &(impl Abort + Alloc<A = Global>), line: &str) -> Sample {
    let Wrapping { key, wrapped, text } = Wrapping::of(line);
    Sample {
        key: AesKey::from_slice(&bytes(rt, key)).expect("a key"),
        is_padded: line.starts_with("aes-192-wrap-pad"),
        text: bytes(rt, text),
        wrapped: bytes(rt, wrapped),
    }
}

// Wraps the text in place: it starts at offset 8 of the room.
fn wrap(sample: &Sample, room: &mut [u8]) -> Result<(), Fault> {
    room.fill(0);
    for (byte, given) in room.iter_mut().skip(8).zip(&sample.text) {
        *byte = *given;
    }
    if sample.is_padded {
        wrap_padded_in_place(&sample.key, room, sample.text.len())
    } else {
        wrap_in_place(&sample.key, room)
    }
}

// Unwraps what the room holds, and returns the text's length.
fn unwrap(sample: &Sample, room: &mut [u8]) -> Result<usize, Fault> {
    if sample.is_padded {
        unwrap_padded_in_place(&sample.key, room)
    } else {
        unwrap_in_place(&sample.key, room)?;
        Ok(room.len().saturating_sub(8))
    }
}

// Whether the text is wrapped as published, and unwrapped again.
fn is_wrapped(sample: &Sample, room: &mut [u8]) -> bool {
    let text = sample.text.as_slice();
    wrap(sample, room).is_ok()
        && &*room == sample.wrapped.as_slice()
        && unwrap(sample, room) == Ok(text.len())
        && room.get(8..text.len().saturating_add(8)) == Some(text)
}

// Whether the wrapping is refused with any one of its bits flipped, and the bytes are left as they were.
fn needs_each_bit(sample: &Sample, room: &mut [u8]) -> bool {
    let mut is_needed = true;
    for bit in 0..room.len().saturating_mul(8) {
        flip(room, bit);
        is_needed &= unwrap(sample, room) == Err(Fault::WrapIntegrity);
        flip(room, bit);
        is_needed &= &*room == sample.wrapped.as_slice();
    }
    is_needed
}

// Whether each shorter beginning of the wrapping is refused. The fault is `WrapIntegrity` if it has whole blocks of 8
// bytes, at least three or with padding two, and `WrapLength` otherwise.
fn needs_its_end(sample: &Sample, room: &mut [u8]) -> bool {
    let least = if sample.is_padded { 16 } else { 24 };
    let mut is_needed = true;
    for length in 0..room.len() {
        let due = if length % 8 == 0 && length >= least { Fault::WrapIntegrity } else { Fault::WrapLength };
        is_needed &= unwrap(sample, &mut room[..length]) == Err(due);
    }
    is_needed
}

// RFC 3394, 4.1 to 4.6, and RFC 5649, 6.
#[test]
fn published_wrappings() {
    let rt = HostRuntime;
    for table in [WRAPPINGS.as_slice(), PADDED.as_slice()] {
        for line in table {
            let sample = sample_of(&rt, line);
            let mut room = bytes(&rt, Wrapping::of(line).wrapped);
            let are_refused = needs_each_bit(&sample, &mut room) && needs_its_end(&sample, &mut room);
            shows(&rt, are_refused && is_wrapped(&sample, &mut room), line);
        }
    }
}
