// Made from crates/command/src/words.rt by tools/erase: not to be edited.
//! The command line.

use crate::command::subcommands::{
    AAD, CHECK, FILE, IN, KEY, NONCE, OPEN, OPEN_FILE, OUT, PAD, SEAL, SEAL_FILE, SEALED, SUITE, TEXT, UNWRAP, WRAP,
    command,
};
use crate::kit::AsStr;
use crate::kit::alloc::Global;
use crate::kit::clap::error::ErrorKind;
use crate::kit::clap::{ArgMatches, Error};

/// A suite's name and the inputs of a call, as they stand on the command line. The body is a text or sealed bytes.
pub struct Inputs<'a> {
    pub suite: &'a str,
    pub key: &'a str,
    pub nonce: &'a str,
    pub aad: &'a str,
    pub body: &'a str,
}

/// A request that prints its answer, with each value as it stands on the command line.
pub enum PrintRequest<'a> {
    /// Prints the sealing of a text.
    Seal(Inputs<'a>),
    /// Prints the text of sealed bytes.
    Open(Inputs<'a>),
    /// Prints the wrapping of a text, with padding or without.
    Wrap { key: &'a str, text: &'a str, pad: bool },
    /// Prints the text of a wrapping, with padding or without.
    Unwrap { key: &'a str, sealed: &'a str, pad: bool },
    /// Prints the report of a vector file.
    Check { path: &'a str },
}

/// A command that writes a file.
pub enum FileCommand {
    /// Seals a file.
    Seal,
    /// Opens a sealed file.
    Open,
}

/// A request that writes a file: the inputs, without a body, and the paths of the file to read and the file to write.
pub struct FileRequest<'a> {
    pub command: FileCommand,
    pub inputs: Inputs<'a>,
    pub input: &'a str,
    pub output: &'a str,
}

/// A request.
pub enum Request<'a> {
    /// A request that prints its answer.
    Print(PrintRequest<'a>),
    /// A request that writes a file.
    Write(FileRequest<'a>),
}

/// Why words are not a request.
pub enum Refusal {
    /// Help was asked for. This is its text.
    Help(Error),
    /// The version was asked for.
    Version,
    /// The words are not a valid command line.
    Words,
    /// An allocation failed.
    OutOfMemory,
}

// The value of an option, or an empty text if it is not given.
fn value<'a>(matches: &ArgMatches<'a>, name: &str) -> &'a str {
    matches.get_str(name).unwrap_or("")
}

// The inputs of a call under a suite.
fn inputs_of<'a>(matches: &ArgMatches<'a>, body: &'a str) -> Inputs<'a> {
    Inputs {
        suite: value(matches, SUITE),
        key: value(matches, KEY),
        nonce: value(matches, NONCE),
        aad: value(matches, AAD),
        body,
    }
}

// The request of a file command; `None` if both paths are the same text.
fn file_request<'a>(command: FileCommand, matches: &ArgMatches<'a>) -> Option<Request<'a>> {
    let input = value(matches, IN);
    let output = value(matches, OUT);
    if input == output {
        return None;
    }
    Some(Request::Write(FileRequest { command, inputs: inputs_of(matches, ""), input, output }))
}

// The request of a command line, or `None` if it is not valid.
fn request_of<'a>(matches: &ArgMatches<'a>) -> Option<Request<'a>> {
    let (name, matches) = matches.subcommand()?;
    Some(Request::Print(match name {
        SEAL => PrintRequest::Seal(inputs_of(matches, value(matches, TEXT))),
        OPEN => PrintRequest::Open(inputs_of(matches, value(matches, SEALED))),
        WRAP => PrintRequest::Wrap { key: value(matches, KEY), text: value(matches, TEXT), pad: matches.get_flag(PAD) },
        UNWRAP => PrintRequest::Unwrap {
            key: value(matches, KEY),
            sealed: value(matches, SEALED),
            pad: matches.get_flag(PAD),
        },
        CHECK => PrintRequest::Check { path: value(matches, FILE) },
        SEAL_FILE => return file_request(FileCommand::Seal, matches),
        OPEN_FILE => return file_request(FileCommand::Open, matches),
        _ => return None,
    }))
}

// Whether a word begins as `-h` or `-V` does and goes on. clap takes it for that option.
fn begins_as_an_option(word: &str) -> bool {
    word.len() > 2 && (word.starts_with("-h") || word.starts_with("-V"))
}

// Whether one of the words in front of `--` does.
fn has_such_a_word<S: AsStr>(words: &[S]) -> bool {
    for word in words {
        let word = word.as_str();
        if word == "--" {
            return false;
        }
        if begins_as_an_option(word) {
            return true;
        }
    }
    false
}

// Returns the request that the words after the program's name make, or why they don't make one.
pub(in crate::command) fn read<'a, S: AsStr>(alloc: Global, words: &'a [S]) -> Result<Request<'a>, Refusal> {
    if has_such_a_word(words) {
        return Err(Refusal::Words);
    }
    let Ok(command) = command(alloc) else {
        return Err(Refusal::OutOfMemory);
    };
    match command.try_get_matches_from(words) {
        Ok(matches) => request_of(&matches).ok_or(Refusal::Words),
        Err(error) => Err(match error.kind() {
            ErrorKind::DisplayHelp => Refusal::Help(error),
            ErrorKind::DisplayVersion => Refusal::Version,
            ErrorKind::OutOfMemory => Refusal::OutOfMemory,
            _ => Refusal::Words,
        }),
    }
}
