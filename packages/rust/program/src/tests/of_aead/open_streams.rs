// Made from crates/aeadkit/src/tests/of_aead/open_streams.rt by tools/erase: not to be edited.
//! Opening a stream whose three readings may differ, over devices that fail or move few bytes at a time.
use super::super::digits::flip;
use super::super::published::{CHACHA, GCM_SIV};
use super::super::shows;
use super::samples::{Sample, first, sample_of};
use crate::kit::alloc::{Global, Vec};
use crate::kit::{Abort, Alloc, HostRuntime};
use aeadkit::internals::aead::open_stream;
use aeadkit::internals::octets::{Fault, ScriptIntake, ScriptOutlet, SliceIntake, Step, VecOutlet};

// Each row says what each of the three readings finds, what the outlet takes, the result, and the text that is written.
// If the result is `Read`, only a beginning of that text is written. `first-N` is the first N bytes alone;
// `changed-at-N` has the lowest bit of byte N flipped; a device with `by-N` moves N bytes in each of its first calls;
// one with `failing-after-N` moves N bytes and then fails.
const OF_CHACHA: &str = "\
measure whole verify whole write whole outlet all result done text whole
measure whole,by-1 verify whole,by-1 write whole,by-1 outlet all result done text whole
measure whole,by-15 verify whole,by-15 write whole,by-15 outlet all result done text whole
measure whole,by-17 verify whole,by-17 write whole,by-17 outlet all result done text whole
measure first-0 verify whole write whole outlet all result TooShort text first-0
measure first-15 verify whole write whole outlet all result TooShort text first-0
measure whole verify one-more write whole outlet all result SourceChanged text first-0
measure whole verify first-129 write whole outlet all result SourceChanged text first-0
measure whole verify changed-at-129 write whole outlet all result SourceChanged text first-0
measure whole verify changed-at-100 write whole outlet all result TagMismatch text first-0
measure changed-at-129 verify changed-at-129 write changed-at-129 outlet all result TagMismatch text first-0
measure whole verify whole write changed-at-100 outlet all result SourceChanged text changed-at-100
measure whole verify whole write changed-at-129 outlet all result SourceChanged text whole
measure whole verify whole write one-more outlet all result SourceChanged text whole
measure whole verify whole write first-50 outlet all result SourceChanged text first-50
measure whole verify whole write first-0 outlet all result SourceChanged text first-0
measure whole,failing-after-0 verify whole write whole outlet all result Read text first-0
measure whole verify whole,failing-after-3 write whole outlet all result Read text first-0
measure whole verify whole write whole,failing-after-3 outlet all result Read text first-3
measure whole verify whole write whole outlet all,failing-after-0 result Write text first-0
measure whole verify whole write whole outlet all,failing-after-3 result Write text first-3";

// The number that the digits spell.
fn number_of(digits: &str) -> usize {
    digits.parse().unwrap_or(0)
}

// A copy of the bytes in the form that a row names.
fn copy_of(rt: &(impl Abort + Alloc<A = Global>), bytes: &[u8], form: &str) -> Vec<u8> {
    let count = match form.strip_prefix("first-") {
        Some(digits) => number_of(digits),
        None => bytes.len(),
    };
    let mut copy = Vec::from_slice(rt.alloc(), first(bytes, count)).expect("memory");
    if let Some(digits) = form.strip_prefix("changed-at-") {
        flip(&mut copy, number_of(digits).saturating_mul(8));
    }
    if form == "one-more" {
        copy.push(0).expect("memory");
    }
    copy
}

// The steps of a device as a row describes it.
fn steps(rt: &(impl Abort + Alloc<A = Global>), device: &str) -> Vec<Step> {
    let mut steps = Vec::new(rt.alloc());
    if let Some((_, digits)) = device.split_once(",by-") {
        for _ in 0..200 {
            steps.push(Step::Give(number_of(digits))).expect("memory");
        }
    }
    if let Some((_, digits)) = device.split_once(",failing-after-") {
        if digits != "0" {
            steps.push(Step::Give(number_of(digits))).expect("memory");
        }
        steps.push(Step::Fail).expect("memory");
    }
    steps
}

// A reading of the bytes as a row describes it.
fn reading(rt: &(impl Abort + Alloc<A = Global>), bytes: &[u8], device: &str) -> ScriptIntake<Global> {
    let form = device.split(',').next().unwrap_or("");
    ScriptIntake::new(copy_of(rt, bytes, form), steps(rt, device))
}

// The result that a row names.
fn result_of(name: &str) -> Result<(), Fault> {
    match name {
        "TooShort" => Err(Fault::TooShort),
        "TagMismatch" => Err(Fault::TagMismatch),
        "SourceChanged" => Err(Fault::SourceChanged),
        "Read" => Err(Fault::Read),
        "Write" => Err(Fault::Write),
        _ => Ok(()),
    }
}

// The word that follows a name in a row.
fn word_after<'a>(row: &'a str, name: &str) -> &'a str {
    let mut is_next = false;
    for word in row.split(' ') {
        if is_next {
            return word;
        }
        is_next = word == name;
    }
    ""
}

// Opens the sealed bytes over the devices of a row, and compares the result and the text.
fn opens(rt: &(impl Abort + Alloc<A = Global>), sample: &Sample, row: &str) {
    let mut measure = reading(rt, &sample.sealed, word_after(row, "measure"));
    let mut verify = reading(rt, &sample.sealed, word_after(row, "verify"));
    let mut write = reading(rt, &sample.sealed, word_after(row, "write"));
    let mut out = ScriptOutlet::new(rt.alloc(), steps(rt, word_after(row, "outlet")));
    let answer =
        open_stream(&sample.cipher, &sample.nonce, &sample.aad, &mut measure, &mut verify, &mut write, &mut out);
    let text = copy_of(rt, &sample.text, word_after(row, "text"));
    let result = word_after(row, "result");
    let given = out.bytes();
    let is_right = answer == result_of(result) && text.starts_with(given);
    shows(rt, is_right && (result == "Read" || given.len() == text.len()), row);
}

// Opens the sealed bytes from slices into a vector.
fn opens_slices(rt: &(impl Abort + Alloc<A = Global>), sample: &Sample) {
    let mut out = VecOutlet::new(rt.alloc());
    let answer = open_stream(
        &sample.cipher,
        &sample.nonce,
        &sample.aad,
        &mut SliceIntake::new(&sample.sealed),
        &mut SliceIntake::new(&sample.sealed),
        &mut SliceIntake::new(&sample.sealed),
        &mut out,
    );
    shows(rt, answer.is_ok() && out.bytes() == sample.text.as_slice(), "slices");
}

#[test]
fn readings_and_devices() {
    let rt = HostRuntime;
    let sample = sample_of(&rt, CHACHA);
    opens_slices(&rt, &sample);
    for row in OF_CHACHA.lines() {
        opens(&rt, &sample, row);
    }
    let row = "measure whole verify whole write changed-at-0 outlet all result SourceChanged text changed-at-0";
    opens(&rt, &sample_of(&rt, GCM_SIV), row);
}
