// Made from crates/aeadkit/src/tests/of_aead/seal_streams.rt by tools/erase: not to be edited.
//! Sealing a stream whose second reading differs from the first, or one of whose calls fails.
use super::super::published::{GCM_4, GCM_SIV};
use super::super::{shows, shows_at};
use super::samples::{Sample, sample_of, two_pass};
use crate::kit::alloc::{Global, Vec};
use crate::kit::{Abort, Alloc, HostRuntime};
use aeadkit::internals::aead::{AnyAead, seal_siv_stream, seal_stream};
use aeadkit::internals::octets::{Fault, ScriptIntake, ScriptOutlet, SliceIntake, Step, VecOutlet};

// A stream with this second reading is refused. What is written by then is a beginning of `most`, without a tag.
fn is_refused(rt: &(impl Abort + Alloc<A = Global>), sample: &Sample, second: &[u8], most: &[u8]) {
    let cipher = two_pass(&sample.cipher).expect("two readings");
    let mut first = SliceIntake::new(&sample.text);
    let mut second = SliceIntake::new(second);
    let mut out = VecOutlet::new(rt.alloc());
    let answer = seal_siv_stream(cipher, &sample.nonce, &sample.aad, &mut first, &mut second, &mut out);
    shows(rt, answer == Err(Fault::SourceChanged) && most.starts_with(out.bytes()), "a beginning");
}

// A second reading of another text of the same length, and one of three bytes.
#[test]
fn other_second_texts() {
    let rt = HostRuntime;
    let sample = sample_of(&rt, GCM_SIV);
    let most = [0xb5, 0xd8, 0x39, 0x33, 0x0a, 0xc7, 0xb7, 0x87];
    is_refused(&rt, &sample, &[1, 0, 0, 0, 0, 0, 0, 1], &most);
    is_refused(&rt, &sample, &[1, 0, 0], &most[..3]);
}

// The devices of a sealing, each with its fault when a call fails.
const DEVICES: [(&str, Fault); 3] = [("first", Fault::Read), ("second", Fault::Read), ("out", Fault::Write)];

// The steps of a device. If it is the one that fails, it moves one byte in each of `before` calls, and then fails.
fn steps(rt: &(impl Abort + Alloc<A = Global>), fails: bool, before: u32) -> Vec<Step> {
    let mut steps = Vec::new(rt.alloc());
    if fails {
        for _ in 0..before {
            steps.push(Step::Give(1)).expect("memory");
        }
        steps.push(Step::Fail).expect("memory");
    }
    steps
}

// A reading of a sample's text in these steps.
fn text_of(rt: &(impl Abort + Alloc<A = Global>), sample: &Sample, steps: Vec<Step>) -> ScriptIntake<Global> {
    let text = Vec::from_slice(rt.alloc(), &sample.text).expect("memory");
    ScriptIntake::new(text, steps)
}

// Seals a sample's text over a device that fails after `before` calls of one byte each, and returns whether the sealing
// was done before the failure. If it was not, a beginning of the sealing was written.
fn is_done(rt: &(impl Abort + Alloc<A = Global>), sample: &Sample, device: &str, due: Fault, before: u32) -> bool {
    let mut first = text_of(rt, sample, steps(rt, device == "first", before));
    let mut second = text_of(rt, sample, steps(rt, device == "second", before));
    let mut out = ScriptOutlet::new(rt.alloc(), steps(rt, device == "out", before));
    let (nonce, aad) = (&sample.nonce, &sample.aad);
    let answer = match &sample.cipher {
        AnyAead::OnePass(cipher) => seal_stream(cipher, nonce, aad, &mut first, &mut out),
        AnyAead::Siv(cipher) => seal_siv_stream(cipher, nonce, aad, &mut first, &mut second, &mut out),
    };
    let is_right = match answer {
        Ok(()) => out.bytes() == sample.sealed.as_slice(),
        Err(fault) => fault == due && sample.sealed.starts_with(out.bytes()),
    };
    shows_at(rt, is_right, device, u64::from(before));
    answer.is_ok()
}

// Each call of each device fails in turn, until a sealing is done before the call that would fail. Each device has such
// calls, except the second reading of a suite that reads the text once.
fn each_call_fails(rt: &(impl Abort + Alloc<A = Global>), line: &str) {
    let sample = sample_of(rt, line);
    let reads_twice = two_pass(&sample.cipher).is_some();
    for (device, due) in &DEVICES {
        let mut count = 0u32;
        for before in 0..1000u32 {
            count = before;
            if is_done(rt, &sample, device, *due, before) {
                break;
            }
        }
        let is_used = reads_twice || *device != "second";
        shows_at(rt, is_used == (count > 8) && count < 999, device, u64::from(count));
    }
}

#[test]
fn calls_that_fail() {
    let rt = HostRuntime;
    each_call_fails(&rt, GCM_4);
    each_call_fails(&rt, GCM_SIV);
}
