// Made from crates/aeadkit/src/tests/of_octets.rt by tools/erase: not to be edited.
//! The steps of scripted devices, and an outlet into memory, which fails only if an allocation fails.
use super::memory::{AMPLE, ample, memory_of, smaller, taken};
use super::{shows, shows_at};
use crate::kit::alloc::{Global, Vec};
use crate::kit::{Abort, Alloc, HostRuntime};
use aeadkit::internals::octets::{Intake, Outlet, ScriptIntake, ScriptOutlet, Step, VecOutlet};

const BYTES: [u8; 10] = [0, 1, 2, 3, 4, 5, 6, 7, 8, 9];

// A vector of these items.
fn vector<T: Copy>(rt: &(impl Abort + Alloc<A = Global>), items: &[T]) -> Vec<T> {
    Vec::from_slice(rt.alloc(), items).expect("memory")
}

// `Give(0)` moves one byte. No call moves more than fits or than there is. After the last step a call moves all that
// fits or is given. A call that fails is written as 99.
#[test]
fn scripts_are_followed() {
    let rt = HostRuntime;
    let steps = [Step::Give(3), Step::Give(0), Step::Fail, Step::Give(100)];
    let mut intake = ScriptIntake::new(vector(&rt, &BYTES), vector(&rt, &steps));
    for due in [3, 1, 99, 5, 1, 0usize] {
        let taken = intake.take(&mut [0; 5]).unwrap_or(99);
        shows(&rt, taken == due, "a take");
    }
    let mut outlet = ScriptOutlet::new(rt.alloc(), vector(&rt, &steps));
    for due in [3, 1, 99, 5, 5usize] {
        let given = outlet.give(&BYTES[..5]).unwrap_or(99);
        shows(&rt, given == due, "a give");
    }
}

// The pieces that an outlet is given, joined.
const JOINED: [u8; 20] = [0, 0, 1, 2, 3, 4, 5, 6, 7, 8, 0, 1, 2, 3, 4, 5, 6, 7, 8, 9];

// Gives pieces of three lengths to an outlet with this room. Returns how much of the room was taken before a piece was
// refused, or in all. A piece is refused if `is_refused`. Then the limit on memory is lifted, and the same piece is
// given again.
fn gives(rt: &(impl Abort + Alloc<A = Global>), room: usize, is_refused: bool) -> usize {
    let memory = memory_of(rt, room);
    let mut outlet = VecOutlet::new(&memory);
    let mut taken_first = None;
    for length in [1, 9, 10usize] {
        if outlet.give(&BYTES[..length]).is_err() {
            shows_at(rt, taken_first.is_none(), "a second refusal", room as u64);
            taken_first = Some(taken(&memory, room));
            memory.set_allocation_limit(None);
            let again = outlet.give(&BYTES[..length]);
            shows_at(rt, again == Ok(length), "room", room as u64);
        }
    }
    let is_right = taken_first.is_some() == is_refused && outlet.bytes() == JOINED.as_slice();
    shows_at(rt, is_right, "room", room as u64);
    taken_first.unwrap_or(taken(&memory, room))
}

// Each request of an outlet for memory is refused in turn, and a piece is refused exactly if a request is. There is at
// least one request.
#[test]
fn outlets_fail_only_without_memory() {
    let rt = HostRuntime;
    let needed = gives(&rt, AMPLE, false);
    shows(&rt, needed > 0, "a request");
    let mut room = smaller(AMPLE, needed);
    for _ in 0..1_000u32 {
        if room == 0 {
            break;
        }
        let needed = gives(&rt, ample(room), false);
        room = smaller(room, gives(&rt, room, room < needed));
    }
    shows(&rt, room == 0, "the first request");
    let _ = gives(&rt, 0, true);
}
