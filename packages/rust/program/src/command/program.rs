// Made from crates/command/src/program.rt by tools/erase: not to be edited.
//! The program, with a writer for each stream.

use crate::command::failure::{Failure, fault_of};
use crate::command::files::write_new_file;
use crate::command::storage::Storage;
use crate::command::version::VERSION;
use crate::command::words::{PrintRequest, Refusal, Request};
use crate::command::{commands, words};
use crate::kit::InlineText;
use crate::kit::alloc::{AllocError, Allocator, Global, Vec};
use crate::kit::{AsStr, String};
use crate::vectors::Report;
use aeadkit::internals::octets::{DeviceFault, Fault};
use std::fmt::Write as _;
use std::io::{ErrorKind, Write};

// Writes text to standard output, and returns status 0. The only faults are `Write` and `OutOfMemory`.
fn print<W: Write>(out: &mut W, text: &str) -> Result<u8, Failure> {
    if let Err(error) = out.write_all(text.as_bytes()) {
        return Err(Failure::Fault(fault_of(&error, Fault::Write)));
    }
    // Flushed here, so that a fault that the system finds late shows in the status.
    if let Err(error) = out.flush() {
        return Err(Failure::Fault(fault_of(&error, Fault::Write)));
    }
    Ok(0)
}

// Prints the value that a command returns as one line of lower-case hexadecimal, and returns status 0. A failure of the command
// is passed on; the only other faults are `Write` and `OutOfMemory`.
fn print_value<A: Allocator + Copy, W: Write>(
    alloc: A,
    out: &mut W,
    value: Result<Vec<u8, A>, Failure>,
) -> Result<u8, Failure> {
    let mut line = crate::kit::hex::encode(alloc, &value?)?;
    line.push('\n')?;
    print(out, &line)
}

// Returns the text of a report: the number of records, then a line for each bad one.
fn report_text<A: Allocator>(alloc: A, records: u64, bad: &[u64]) -> Result<String<A>, AllocError> {
    let mut text = String::new(alloc);
    writeln!(text, "records {records}")?;
    for number in bad {
        writeln!(text, "bad {number}")?;
    }
    Ok(text)
}

// Returns the status of a report: 0 if there are records and none is bad, else 1.
fn report_status<A: Allocator>(report: &Report<A>) -> u8 {
    if report.yes() { 0 } else { 1 }
}

// Prints the report of a vector file, and returns status 0, or 1 if a record is bad or there is none.
fn print_checking<A: Allocator, F: Storage, W: Write>(
    alloc: &A,
    files: &F,
    path: &str,
    out: &mut W,
) -> Result<u8, Failure> {
    let report = commands::check(alloc, files, path)?;
    let text = report_text(alloc, report.records, &report.bad)?;
    print(out, &text)?;
    Ok(report_status(&report))
}

/// Does what a request asks for: prints its answer and returns the status, which is 0, or 1 for a file with bad records.
/// Faults, in this order: those of its values, those of the call, `Write`; `OutOfMemory` wherever an allocation fails.
pub fn perform<A: Allocator, F: Storage, W: Write>(
    alloc: &A,
    files: &F,
    request: &PrintRequest<'_>,
    out: &mut W,
) -> Result<u8, Failure> {
    match request {
        PrintRequest::Seal(inputs) => print_value(alloc, out, commands::seal(alloc, inputs)),
        PrintRequest::Open(inputs) => print_value(alloc, out, commands::open(alloc, inputs)),
        PrintRequest::Wrap { key, text, pad } => print_value(alloc, out, commands::wrap(alloc, key, text, *pad)),
        PrintRequest::Unwrap { key, sealed, pad } => {
            print_value(alloc, out, commands::unwrap(alloc, key, sealed, *pad))
        }
        PrintRequest::Check { path } => print_checking(alloc, files, path, out),
    }
}

// Prints the help or the version that was asked for, or returns why the words are not a request.
fn refuse<W: Write>(alloc: Global, refusal: &Refusal, out: &mut W) -> Result<u8, Failure> {
    match refusal {
        Refusal::Help(help) => {
            let text = format!(in alloc; "{help}")?;
            print(out, &text)
        }
        Refusal::Version => {
            let line = format!(in alloc; "aeadkit {VERSION}\n")?;
            print(out, &line)
        }
        Refusal::Words => Err(Failure::Words),
        Refusal::OutOfMemory => Err(Failure::Fault(Fault::OutOfMemory)),
    }
}

// Writes a line to standard error, in at most 1,000 writes. An interrupted write is tried again. At any other failure a
// beginning of the line was written.
fn write_line<E: Write>(err: &mut E, line: &[u8]) -> Result<(), DeviceFault> {
    let mut at = 0;
    for _ in 0..1000 {
        if at == line.len() {
            return Ok(());
        }
        match err.write(&line[at..]) {
            Ok(0) => return Err(DeviceFault),
            Ok(n) => at += n,
            Err(error) if error.kind() == ErrorKind::Interrupted => {}
            Err(_) => return Err(DeviceFault),
        }
    }
    Err(DeviceFault)
}

/// Prints on standard error why the program stops, and returns the status. If standard error fails, the status is the same.
pub fn report<E: Write>(err: &mut E, failure: Failure) -> u8 {
    // No contract says what `writeln!` wrote before it failed, so the line is made first, and then written by `write`. The longest
    // one, an unknown suite in the line with the greatest number, has 51 bytes.
    let mut line = InlineText::<64>::new();
    if let Ok(()) = writeln!(line, "aeadkit: {failure}") {
        let _ = write_line(err, line.as_str().as_bytes());
    }
    failure.status()
}

// Carries out the request or the refusal that the words were read as.
fn answer<F: Storage, W: Write>(
    alloc: Global,
    files: &F,
    read: &Result<Request<'_>, Refusal>,
    out: &mut W,
) -> Result<u8, Failure> {
    match read {
        Ok(Request::Print(request)) => perform(&alloc, files, request, out),
        Ok(Request::Write(request)) => write_new_file(&alloc, files, request),
        Err(refusal) => refuse(alloc, refusal, out),
    }
}

/// Carries out the request or the refusal that the words were read as, and returns the program's status. If standard error
/// fails, the status is the same.
pub fn respond<F: Storage, W: Write, E: Write>(
    alloc: Global,
    files: &F,
    read: &Result<Request<'_>, Refusal>,
    out: &mut W,
    err: &mut E,
) -> u8 {
    match answer(alloc, files, read, out) {
        Ok(status) => status,
        Err(failure) => report(err, failure),
    }
}

/// Runs the command line, which is the words after the program's name, and returns the status: 0 if it succeeded, 1 if
/// authentication failed or a vector file has a fault or a bad record, 2 if the words or a value are invalid, 3 if a read or a
/// write failed or a file changed between two readings, 4 if an allocation failed.
pub fn run<S: AsStr, F: Storage, W: Write, E: Write>(
    alloc: Global,
    files: &F,
    words: &[S],
    out: &mut W,
    err: &mut E,
) -> u8 {
    respond(alloc, files, &words::read(alloc, words), out, err)
}
