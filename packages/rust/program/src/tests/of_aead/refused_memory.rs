// Made from crates/aeadkit/src/tests/of_aead/refused_memory.rt by tools/erase: not to be edited.
//! Sealing in pieces, with each request for memory refused in turn.
use super::super::memory::{AMPLE, ample, memory_of, smaller, taken};
use super::super::published::{CHACHA, GCM, GCM_SIV};
use super::super::{shows, shows_at};
use super::samples::*;
use crate::kit::alloc::{Allocator, Global};
use crate::kit::{Abort, Alloc, HostRuntime};
use aeadkit::internals::aead::seal_cut;
use aeadkit::internals::octets::Fault;

// Seals a text in pieces, and returns whether they are the published sealing.
fn is_right<A: Allocator + Copy>(alloc: A, sample: &Sample) -> Result<bool, Fault> {
    let Sample { cipher, nonce, aad, text, sealed } = sample;
    let pieces = seal_cut(alloc, cipher, nonce, aad, text, &[3, 8])?;
    Ok(are_joined(&pieces, sealed))
}

// Seals in this room, compares the result with `due`, and returns how much of the room was taken.
fn seals(rt: &(impl Abort + Alloc<A = Global>), sample: &Sample, room: usize, due: Result<bool, Fault>) -> usize {
    let memory = memory_of(rt, room);
    let answer = is_right(&memory, sample);
    shows_at(rt, answer == due, "room", room as u64);
    taken(&memory, room)
}

// Seals in an ample room and in this one, and returns how much of this one was taken. If a request is refused, the
// result is `OutOfMemory`. Otherwise it is the published sealing.
fn seals_or_refuses(rt: &(impl Abort + Alloc<A = Global>), sample: &Sample, room: usize) -> usize {
    let needed = seals(rt, sample, ample(room), Ok(true));
    let due = if room < needed { Err(Fault::OutOfMemory) } else { Ok(true) };
    seals(rt, sample, room, due)
}

// Each request is refused in turn, and there is at least one request.
#[test]
fn requests_are_refused_in_turn() {
    let rt = HostRuntime;
    for line in [CHACHA, GCM, GCM_SIV] {
        let sample = sample_of(&rt, line);
        let needed = seals(&rt, &sample, AMPLE, Ok(true));
        shows(&rt, needed > 0, "a request");
        let mut room = smaller(AMPLE, needed);
        for _ in 0..10_000u32 {
            if room == 0 {
                break;
            }
            room = smaller(room, seals_or_refuses(&rt, &sample, room));
        }
        shows(&rt, room == 0, "the first request");
        let _ = seals(&rt, &sample, 0, Err(Fault::OutOfMemory));
    }
}
