// Made from crates/command/src/files.rt by tools/erase: not to be edited.
//! The file commands: they seal or open a file into another one, in memory of a fixed size.

use crate::command::commands::aead_inputs;
use crate::command::failure::Failure;
use crate::command::identity::is_one_file;
use crate::command::new_file::NewFile;
use crate::command::readings::reading;
use crate::command::storage::Storage;
use crate::command::words::{FileCommand, FileRequest};
use crate::kit::alloc::Allocator;
use aeadkit::internals::aead::{AnyAead, AnyOnePass, GcmSiv, open_stream, seal_siv_stream, seal_stream};
use aeadkit::internals::octets::{Fault, Nonce, Outlet};

// Seals a file into an outlet, in one reading.
fn seal_once<F: Storage, O: Outlet>(
    files: &F,
    path: &str,
    cipher: &AnyOnePass,
    nonce: &Nonce,
    aad: &[u8],
    out: &mut O,
) -> Result<(), Fault> {
    let mut text = reading(files, path, 0)?;
    seal_stream(cipher, nonce, aad, &mut text, out)
}

// Seals a file into an outlet under AES-GCM-SIV, in two readings.
fn seal_twice<F: Storage, O: Outlet>(
    files: &F,
    path: &str,
    cipher: &GcmSiv,
    nonce: &Nonce,
    aad: &[u8],
    out: &mut O,
) -> Result<(), Fault> {
    let mut first = reading(files, path, 0)?;
    let mut second = reading(files, path, 1)?;
    seal_siv_stream(cipher, nonce, aad, &mut first, &mut second, out)
}

// Opens a file into an outlet, in three readings.
fn open_thrice<F: Storage, O: Outlet>(
    files: &F,
    path: &str,
    cipher: &AnyAead,
    nonce: &Nonce,
    aad: &[u8],
    out: &mut O,
) -> Result<(), Fault> {
    let mut measure = reading(files, path, 0)?;
    let mut verify = reading(files, path, 1)?;
    let mut write = reading(files, path, 2)?;
    open_stream(cipher, nonce, aad, &mut measure, &mut verify, &mut write, out)
}

// Runs a command's engine from a file into an outlet, under any cipher.
fn run_engine<F: Storage, O: Outlet>(
    files: &F,
    words: &FileRequest<'_>,
    cipher: &AnyAead,
    nonce: &Nonce,
    aad: &[u8],
    out: &mut O,
) -> Result<(), Fault> {
    match words.command {
        FileCommand::Seal => match cipher {
            AnyAead::OnePass(cipher) => seal_once(files, words.input, cipher, nonce, aad, out),
            AnyAead::Siv(cipher) => seal_twice(files, words.input, cipher, nonce, aad, out),
        },
        FileCommand::Open => open_thrice(files, words.input, cipher, nonce, aad, out),
    }
}

// Runs a command's engine from a file into an outlet, on the inputs that the words spell.
fn run_command<A: Allocator, F: Storage, O: Outlet>(
    alloc: &A,
    files: &F,
    words: &FileRequest<'_>,
    out: &mut O,
) -> Result<(), Failure> {
    let inputs = aead_inputs(alloc, &words.inputs)?;
    Ok(run_engine(files, words, &inputs.cipher, &inputs.nonce, &inputs.aad, out)?)
}

// Runs a file command into a file that is not made before it is needed, and returns status 0. `Words` if it would be made over
// the file to read.
fn write_file<'a, A: Allocator, B: Allocator, F: Storage>(
    alloc: &A,
    files: &F,
    words: &FileRequest<'_>,
    file: &mut NewFile<'a, F, B>,
) -> Result<u8, Failure> {
    if is_one_file(files.identity(words.input), files.identity(words.output)) {
        return Err(Failure::Words);
    }
    run_command(alloc, files, words, file)?;
    file.finish()?;
    Ok(0)
}

/// `seal-file` and `open-file`: seals or opens a file into another one, and returns status 0. The written file is
/// closed when this returns.
///
/// Faults, in this order: `Words` if both paths lead to one file, as a link does, those of the inputs, `Read` if the file can't
/// be opened, and those of the engine;
/// `OutOfMemory` wherever an allocation fails. The engine's faults for sealing are `AadTooLong`, `TextTooLong` once more than
/// the suite's limit was read, `Read`, `Write`, and for AES-GCM-SIV `SourceChanged`. For opening they are `AadTooLong`, then
/// those of its three readings: nothing is written before authentication of a whole reading has succeeded.
///
/// On `SourceChanged`, `Read` and `Write`, and on `TextTooLong` when sealing, the written file was not made, or holds a prefix
/// of its intended contents, which has to be thrown away. On any other fault, and if the file to read can't be opened, the
/// written file was not made.
pub fn write_new_file<A: Allocator, F: Storage>(
    alloc: &A,
    files: &F,
    request: &FileRequest<'_>,
) -> Result<u8, Failure> {
    let mut file = NewFile::new(alloc, files, request.output)?;
    write_file(alloc, files, request, &mut file)
}
