// Made from crates/aeadkit/src/tests/memory.rt by tools/erase: not to be edited.
//! Memory with an exact room, so that each request of a call for memory can be refused in turn.
//!
//! Each request takes new bytes, and no bytes are given back. So a room that is smaller than what a call takes refuses
//! a request, and the rooms from there down to 0 refuse each request in turn, from the last to the first.
use crate::kit::alloc::{Global, Vec};
use crate::kit::bumpalo::Bump;
use crate::kit::{Abort, Alloc};

/// A room that is large enough for each call of the tests, and a multiple of 16.
pub const AMPLE: usize = 1_048_576;

// Takes bytes from the current chunk, or from a new one if they do not fit.
fn take<'m>(_rt: &impl Abort, memory: &'m Bump, count: usize) -> Vec<u8, &'m Bump> {
    Vec::with_capacity(memory, count).expect("memory")
}

/// Memory with this room, which is at most `AMPLE` + 15 bytes.
pub fn memory_of(rt: &(impl Abort + Alloc<A = Global>), room: usize) -> Bump {
    let memory = Bump::try_with_capacity(rt.alloc(), AMPLE).expect("memory");
    {
        // Once there is a second chunk, no block is freed or grown in place.
        let _first = take(rt, &memory, memory.chunk_capacity());
        let _second = take(rt, &memory, 1);
        let _rest = take(rt, &memory, memory.chunk_capacity().saturating_sub(room));
    }
    memory.set_allocation_limit(Some(0));
    memory
}

/// How many bytes of the room were taken.
pub fn taken(memory: &Bump, room: usize) -> usize {
    room.saturating_sub(memory.chunk_capacity())
}

/// An ample room in which blocks are aligned as in `room`: a call takes more than `room` bytes of it exactly if `room`
/// refuses one of its requests.
pub fn ample(room: usize) -> usize {
    AMPLE + room % 16
}

/// The next smaller room to try, after a call that took `taken` bytes of this one. It skips no request: in another room
/// a call takes at most 15 bytes more for the same requests, since only the first alignment differs.
pub fn smaller(room: usize, taken: usize) -> usize {
    room.saturating_sub(1).min(taken.saturating_add(15))
}
