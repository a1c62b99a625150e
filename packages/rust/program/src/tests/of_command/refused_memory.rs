// Made from crates/aeadkit/src/tests/of_command/refused_memory.rt by tools/erase: not to be edited.
//! Commands with each of their requests for memory refused in turn. The fault is `OutOfMemory`, or `Write` if the
//! refused request came from the creation of the output file. If no request is refused, the result is right.
use super::super::digits::bytes;
use super::super::memory::{AMPLE, ample, memory_of, smaller, taken};
use super::super::published::{CHACHA, GCM, GCM_SIV, PADDED, Vector, WRAPPINGS, Wrapping};
use super::super::runs::{is_line, names};
use super::super::vector_files::{TWO_RECORDS, published, with_lines};
use super::super::{shows, shows_at};
use super::scripted_files::{Log, Script, Scripted, Sink, Source};
use crate::command::{
    FileCommand, FileRequest, Identity, Inputs, PrintRequest, Request, Storage, perform, report, write_new_file,
};
use crate::kit::alloc::{Allocator, Global, Vec};
use crate::kit::io::BufReader;
use crate::kit::{Abort, Alloc, HostRuntime};
use aeadkit::internals::octets::{FromRead, ToWrite};
use std::cell::Cell;
use std::io;
use std::str::from_utf8;

// How many bytes of a file are read ahead.
const AHEAD: usize = 256;

// Files in memory whose calls allocate: each open does, for a buffer, and so does the creation of the output file.
struct AllocatingFiles<'b, 'l, 'm, A: Allocator> {
    files: Scripted<'b, 'l>,
    memory: &'m A,
    // Whether the creation of the output file was refused its memory.
    unmade: Cell<bool>,
}

// Allocates one byte, and gives it back.
fn allocate<A: Allocator>(memory: &A) -> io::Result<()> {
    match Vec::<u8, &A>::with_capacity(memory, 1) {
        Ok(_) => Ok(()),
        Err(_) => Err(io::Error::from(io::ErrorKind::OutOfMemory)),
    }
}

impl<'b, 'l, 'm, A: Allocator> Storage for AllocatingFiles<'b, 'l, 'm, A> {
    type Input = FromRead<BufReader<Source<'b, 'l>, &'m A>>;

    type Output = ToWrite<Sink<'l>>;

    fn open(&self, _path: &str, reading: u8) -> io::Result<FromRead<BufReader<Source<'b, 'l>, &'m A>>> {
        allocate(self.memory)?;
        let source = self.files.source(reading)?;
        Ok(FromRead::new(BufReader::with_capacity(self.memory, AHEAD, source)?))
    }

    fn identity(&self, path: &str) -> Option<Identity> {
        self.files.identity(path)
    }

    fn create(&self, path: &str) -> io::Result<ToWrite<Sink<'l>>> {
        self.unmade.set(true);
        allocate(self.memory)?;
        self.unmade.set(false);
        self.files.create(path)
    }

    fn sync(&self, output: &ToWrite<Sink<'l>>) -> io::Result<()> {
        self.files.sync(output)
    }
}

// A request, the contents of the file that it reads, its status, the line that it prints, and the contents of the file
// that it writes.
struct Case<'a> {
    request: Request<'a>,
    from: &'a [u8],
    status: u8,
    line: &'a str,
    to: &'a [u8],
}

// Performs a request, and returns the status.
fn status_of<A: Allocator, F: Storage>(
    memory: &A,
    files: &F,
    request: &Request<'_>,
    out: &mut Vec<u8>,
    err: &mut Vec<u8>,
) -> u8 {
    let answer = match request {
        Request::Print(request) => perform(memory, files, request, out),
        Request::Write(request) => write_new_file(memory, files, request),
    };
    match answer {
        Ok(status) => status,
        Err(failure) => report(err, failure),
    }
}

// Whether a request that was performed printed its line, or wrote its file.
fn is_done(case: &Case<'_>, out: &[u8], log: &Log) -> bool {
    match case.request {
        Request::Print(_) => is_line(out, case.line),
        Request::Write(_) => out.is_empty() && log.holds(case.to),
    }
}

// Performs a request in this room, and returns the status that is due, with how much of the room was taken. If a
// request for memory is refused, the status is 3 if it came from the creation of the output file, and 4 otherwise. Then
// nothing is printed, and no file is created.
fn runs(rt: &(impl Abort + Alloc<A = Global>), case: &Case<'_>, room: usize, is_refused: bool) -> (u8, usize) {
    let memory = memory_of(rt, room);
    let log = Log::new(rt.alloc());
    let files = AllocatingFiles {
        files: Scripted { bytes: case.from, script: Script::of_none(&log) },
        memory: &memory,
        unmade: Cell::new(false),
    };
    let mut out: Vec<u8> = Vec::new(rt.alloc());
    let mut err: Vec<u8> = Vec::new(rt.alloc());
    let status = status_of(&memory, &files, &case.request, &mut out, &mut err);
    let (due, fault) = if !is_refused {
        (case.status, "")
    } else if files.unmade.get() {
        (3, "Write")
    } else {
        (4, "OutOfMemory")
    };
    shows_at(rt, status == due && names(&err, fault), "status", room as u64);
    let is_right = if is_refused { out.is_empty() && !log.made.get() } else { is_done(case, &out, &log) };
    shows_at(rt, is_right, "room", room as u64);
    (due, taken(&memory, room))
}

// Performs a request in an ample room of each alignment, and returns how much of each room was taken.
fn needs(rt: &(impl Abort + Alloc<A = Global>), case: &Case<'_>) -> [usize; 16] {
    let mut needs = [0; 16];
    for (room, needed) in needs.iter_mut().enumerate() {
        let (_, taken) = runs(rt, case, ample(room), false);
        *needed = taken;
    }
    needs
}

// Performs a request in smaller and smaller rooms, and returns the status of the first that refuses a request for
// memory. They begin `skipped` bytes below the room that holds all that is taken, and end once they are smaller by
// `tried` bytes, or at 0. Each request for memory that comes in between is refused in turn, from the last to the first.
fn status_of_first(rt: &(impl Abort + Alloc<A = Global>), case: &Case<'_>, skipped: usize, tried: usize) -> Option<u8> {
    let needs = needs(rt, case);
    let mut room = smaller(AMPLE, needs[0]).saturating_sub(skipped);
    let end = room.saturating_sub(tried);
    let mut first_status = None;
    for _ in 0..100_000u32 {
        let is_refused = room < needs[room % 16];
        let (status, taken) = runs(rt, case, room, is_refused);
        if is_refused && first_status.is_none() {
            first_status = Some(status);
        }
        if room <= end {
            break;
        }
        room = smaller(room, taken);
    }
    shows(rt, room <= end, "the first request");
    first_status
}

// Performs a request with each of its requests for memory refused in turn, from the last to the first. If the last one
// is refused, the status is `last`.
fn each_is_refused(rt: &(impl Abort + Alloc<A = Global>), case: &Case<'_>, last: u8) {
    let status = status_of_first(rt, case, 0, AMPLE);
    shows(rt, status == Some(last), "the last request");
}

// Performs a request that reads this file and prints a line, with each of its requests for memory refused in turn.
fn prints(rt: &(impl Abort + Alloc<A = Global>), request: PrintRequest<'_>, from: &[u8], status: u8, line: &str) {
    let case = Case { request: Request::Print(request), from, status, line, to: &[] };
    each_is_refused(rt, &case, 4);
}

// The inputs of a vector, with a body.
fn inputs<'a>(vector: &Vector<'a>, body: &'a str) -> Inputs<'a> {
    Inputs { suite: vector.suite, key: vector.key, nonce: vector.nonce, aad: vector.aad, body }
}

#[test]
fn sealing_and_opening() {
    let rt = HostRuntime;
    for line in [CHACHA, GCM, GCM_SIV] {
        let vector = Vector::of(line);
        let request = PrintRequest::Seal(inputs(&vector, vector.text));
        prints(&rt, request, &[], 0, vector.sealed);
        let request = PrintRequest::Open(inputs(&vector, vector.sealed));
        prints(&rt, request, &[], 0, vector.text);
    }
}

#[test]
fn wrapping_and_unwrapping() {
    let rt = HostRuntime;
    for (line, pad) in [(WRAPPINGS[0], false), (PADDED[0], true)] {
        let Wrapping { key, text, wrapped } = Wrapping::of(line);
        prints(&rt, PrintRequest::Wrap { key, text, pad }, &[], 0, wrapped);
        let sealed = wrapped;
        prints(&rt, PrintRequest::Unwrap { key, sealed, pad }, &[], 0, text);
    }
}

#[test]
fn checking_two_records() {
    let rt = HostRuntime;
    let request = PrintRequest::Check { path: "" };
    prints(&rt, request, TWO_RECORDS.as_bytes(), 0, "records 2");
}

// Checks a file of 18 records, the fifth of which disagrees, in these rooms.
fn finds_bad_record(rt: &(impl Abort + Alloc<A = Global>), skipped: usize, tried: usize) {
    let file = published(rt, "2");
    let text = from_utf8(&file).expect("text");
    let fifth = with_lines(rt, text, "31|invalid\n");
    let case = Case {
        request: Request::Print(PrintRequest::Check { path: "" }),
        from: &fifth,
        status: 1,
        line: "records 18\nbad 5",
        to: &[],
    };
    let status = status_of_first(rt, &case, skipped, tried);
    shows(rt, status == Some(4), "a request");
}

// Each room takes a while, so there are two tests, which share the rooms about evenly.
const SHARE: usize = 160;

#[test]
fn finding_a_bad_record_in_large_rooms() {
    let rt = HostRuntime;
    finds_bad_record(&rt, 0, SHARE);
}

#[test]
fn finding_a_bad_record_in_small_rooms() {
    let rt = HostRuntime;
    finds_bad_record(&rt, SHARE, AMPLE);
}

// Seals a file with a vector's text, or opens one with its sealed bytes. The last request for memory comes from the
// creation of the output file.
fn writes(rt: &(impl Abort + Alloc<A = Global>), command: FileCommand, vector: &Vector<'_>, from: &str, to: &str) {
    let request = FileRequest { command, inputs: inputs(vector, ""), input: "a", output: "b" };
    let from = bytes(rt, from);
    let to = bytes(rt, to);
    let case = Case { request: Request::Write(request), from: &from, status: 0, line: "", to: &to };
    each_is_refused(rt, &case, 3);
}

#[test]
fn sealing_and_opening_files() {
    let rt = HostRuntime;
    for line in [CHACHA, GCM, GCM_SIV] {
        let vector = Vector::of(line);
        writes(&rt, FileCommand::Seal, &vector, vector.text, vector.sealed);
        writes(&rt, FileCommand::Open, &vector, vector.sealed, vector.text);
    }
}
