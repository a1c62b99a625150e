// Made from crates/aeadkit/src/tests/of_command/failing_files.rt by tools/erase: not to be edited.
//! The file commands, with a call to their files that goes wrong.
use super::super::devices::NO_FILES;
use super::super::digits::bytes;
use super::super::published::{CHACHA, GCM_SIV, Vector};
use super::super::runs::{names, runs_row};
use super::super::shows_at;
use super::scripted_files::{Log, Script, Scripted, Wrong};
use crate::command::run;
use crate::kit::alloc::{Global, Vec};
use crate::kit::{Abort, Alloc, HostRuntime};

// Whether the fault names the side that went wrong, and the output file holds a beginning of what it should. If a
// reading before the last one went wrong, no output file was created.
fn is_stopped(log: &Log, err: &[u8], to: &[u8], last: u8) -> bool {
    let (fault, may_be_made) = match log.reading.get() {
        Some(reading) => ("Read", last <= reading),
        None => ("Write", true),
    };
    names(err, fault) && log.begins(to) && (may_be_made || !log.made.get())
}

// Runs a file command with one call that goes wrong, and returns whether the command ended before that call.
fn is_over_before(
    rt: &(impl Abort + Alloc<A = Global>),
    words: &[&str],
    from: &[u8],
    to: &[u8],
    last: u8,
    wrong_call: (u32, Wrong, bool),
) -> bool {
    let (at, wrong, trickle) = wrong_call;
    let log = Log::new(rt.alloc());
    let script = Script { at, wrong, trickle, log: &log };
    let files = Scripted { bytes: from, script };
    let mut out: Vec<u8> = Vec::new(rt.alloc());
    let mut err: Vec<u8> = Vec::new(rt.alloc());
    let status = run(rt.alloc(), &files, words, &mut out, &mut err);
    let is_over = log.calls.get() < at;
    let is_right = if is_over || matches!(wrong, Wrong::IsShort) {
        status == 0 && err.is_empty() && log.holds(to)
    } else {
        status == 3 && is_stopped(&log, &err, to, last)
    };
    shows_at(rt, is_right && out.is_empty(), "call", u64::from(at));
    is_over
}

// Runs a file command with each of its calls going wrong in turn, until a run ends before the call that would go wrong.
fn each_call_goes_wrong(
    rt: &(impl Abort + Alloc<A = Global>),
    words: &[&str],
    from: &[u8],
    to: &[u8],
    last: u8,
    how: (Wrong, bool),
) {
    let (wrong, trickle) = how;
    let mut count = 1u32;
    for at in 1..1000u32 {
        count = at;
        if is_over_before(rt, words, from, to, last, (at, wrong, trickle)) {
            break;
        }
    }
    shows_at(rt, 4 < count && count < 999, "calls", u64::from(count));
}

// The words of a file command from `a` to `b` with a vector's inputs.
fn file_words<'a>(command: &'a str, vector: &Vector<'a>) -> [&'a str; 13] {
    [
        command,
        "--suite",
        vector.suite,
        "--key",
        vector.key,
        "--nonce",
        vector.nonce,
        "--aad",
        vector.aad,
        "--in",
        "a",
        "--out",
        "b",
    ]
}

// Seals and opens a vector's text with each call going wrong in turn. `last` is the number of sealing's last reading,
// from 0 on.
fn each_call_of(rt: &(impl Abort + Alloc<A = Global>), line: &str, last: u8, how: (Wrong, bool)) {
    let vector = Vector::of(line);
    let text = bytes(rt, vector.text);
    let sealed = bytes(rt, vector.sealed);
    let words = file_words("seal-file", &vector);
    each_call_goes_wrong(rt, &words, &text, &sealed, last, how);
    let words = file_words("open-file", &vector);
    each_call_goes_wrong(rt, &words, &sealed, &text, 2, how);
}

// Each open, read, creation, write and sync in turn fails, or is interrupted, which is a failure too, or moves only one
// byte, which changes nothing. Each of them also fails while all others move one byte each.
#[test]
fn calls_that_go_wrong() {
    let rt = HostRuntime;
    for how in [(Wrong::Fails, false), (Wrong::IsInterrupted, false), (Wrong::IsShort, false), (Wrong::Fails, true)] {
        each_call_of(&rt, CHACHA, 0, how);
        each_call_of(&rt, GCM_SIV, 1, how);
    }
}

// A status, a fault and the words that have them, with an IN that can't be opened. The words are checked in this order:
// the suite's name, the hex of key, nonce and associated data, the key's length, the nonce's length, and then the
// files.
const REFUSED: &str = "\
2 UnknownSuite seal-file --suite des --key 0 --nonce 0 --aad 0 --in a --out b
2 BadHex seal-file --suite aes-128-gcm --key 0 --nonce 00 --aad - --in a --out b
2 BadHex seal-file --suite aes-128-gcm --key 00 --nonce 0 --aad - --in a --out b
2 BadHex seal-file --suite aes-128-gcm --key 00 --nonce 00 --aad 0 --in a --out b
2 KeyLength seal-file --suite aes-128-gcm --key 00 --nonce 00 --aad - --in a --out b
2 NonceLength seal-file --suite aes-128-gcm --key 00000000000000000000000000000000 --nonce 00 --aad - --in a --out b
3 Read seal-file --suite aes-128-gcm --key 00000000000000000000000000000000 --nonce 000000000000000000000000 --aad - --in a --out b
2 UnknownSuite open-file --suite des --key 0 --nonce 0 --aad 0 --in a --out b
2 BadHex open-file --suite aes-128-gcm --key 0 --nonce 00 --aad - --in a --out b
2 BadHex open-file --suite aes-128-gcm --key 00 --nonce 0 --aad - --in a --out b
2 BadHex open-file --suite aes-128-gcm --key 00 --nonce 00 --aad 0 --in a --out b
2 KeyLength open-file --suite aes-128-gcm --key 00 --nonce 00 --aad - --in a --out b
2 NonceLength open-file --suite aes-128-gcm --key 00000000000000000000000000000000 --nonce 00 --aad - --in a --out b
3 Read open-file --suite aes-128-gcm --key 00000000000000000000000000000000 --nonce 000000000000000000000000 --aad - --in a --out b";

#[test]
fn inputs_before_files() {
    let rt = HostRuntime;
    for row in REFUSED.lines() {
        runs_row(&rt, &NO_FILES, row);
    }
}
