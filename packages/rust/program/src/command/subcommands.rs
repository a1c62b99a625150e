// Made from crates/command/src/subcommands.rt by tools/erase: not to be edited.
//! The subcommands, for clap.
use crate::command::help::{
    ABOUT_HEX, CHECK_MORE, KEY_LENGTH, OPEN_FILE_MORE, OPEN_MORE, OUT_FILE, SEAL_FILE_MORE, SEAL_MORE, SUITES,
    UNWRAP_MORE, WRAP_KEY, WRAP_MORE,
};
use crate::command::version::VERSION;
use crate::kit::alloc::{AllocError, Global};
use crate::kit::clap::{Arg, ArgAction, Command};

pub(in crate::command) const SEAL: &str = "seal";

pub(in crate::command) const OPEN: &str = "open";

pub(in crate::command) const WRAP: &str = "wrap";

pub(in crate::command) const UNWRAP: &str = "unwrap";

pub(in crate::command) const SEAL_FILE: &str = "seal-file";

pub(in crate::command) const OPEN_FILE: &str = "open-file";

pub(in crate::command) const CHECK: &str = "check";

pub(in crate::command) const SUITE: &str = "suite";

pub(in crate::command) const KEY: &str = "key";

pub(in crate::command) const NONCE: &str = "nonce";

pub(in crate::command) const AAD: &str = "aad";

pub(in crate::command) const TEXT: &str = "text";

pub(in crate::command) const SEALED: &str = "sealed";

pub(in crate::command) const PAD: &str = "pad";

pub(in crate::command) const IN: &str = "in";

pub(in crate::command) const OUT: &str = "out";

pub(in crate::command) const FILE: &str = "file";

// An argument: an option under its name, or a word.
struct ArgSpec {
    name: &'static str,
    // The name of its value in help.
    value: &'static str,
    help: &'static str,
    is_option: bool,
    is_required: bool,
    action: ArgAction,
}

// A required option with a value in hexadecimal, without its name and its help.
const HEX: ArgSpec =
    ArgSpec { name: "", value: "HEX", help: "", is_option: true, is_required: true, action: ArgAction::Set };

const SUITE_ARG: ArgSpec = ArgSpec { name: SUITE, value: "SUITE", help: SUITES, ..HEX };

const KEY_ARG: ArgSpec = ArgSpec { name: KEY, help: KEY_LENGTH, ..HEX };

const NONCE_ARG: ArgSpec = ArgSpec { name: NONCE, help: "The nonce: 12 bytes", ..HEX };

const AAD_ARG: ArgSpec = ArgSpec { name: AAD, help: "The associated data", is_required: false, ..HEX };

const TEXT_ARG: ArgSpec = ArgSpec { name: TEXT, help: "The text", is_required: false, ..HEX };

const SEALED_ARG: ArgSpec = ArgSpec { name: SEALED, help: "The ciphertext, then the tag", ..HEX };

const IN_ARG: ArgSpec = ArgSpec { name: IN, value: "IN", help: "The file that is read", ..HEX };

const OUT_ARG: ArgSpec = ArgSpec { name: OUT, value: "OUT", help: OUT_FILE, ..HEX };

const WRAP_KEY_ARG: ArgSpec = ArgSpec { help: WRAP_KEY, ..KEY_ARG };

const WRAP_TEXT_ARG: ArgSpec = ArgSpec { is_required: true, ..TEXT_ARG };

const WRAPPING_ARG: ArgSpec = ArgSpec { help: "The wrapping", ..SEALED_ARG };

// This option has no value.
const PAD_ARG: ArgSpec = ArgSpec {
    name: PAD,
    value: "",
    help: "With padding (RFC 5649)",
    is_required: false,
    action: ArgAction::SetTrue,
    ..HEX
};

const FILE_ARG: ArgSpec = ArgSpec { name: FILE, value: "FILE", help: "The vector file", is_option: false, ..HEX };

// The arguments of the subcommands.
#[derive(Clone, Copy)]
enum Argument {
    Suite,
    Key,
    Nonce,
    Aad,
    Text,
    Sealed,
    In,
    Out,
    WrapKey,
    WrapText,
    Wrapping,
    Pad,
    File,
}

use Argument::{Aad, File, In, Key, Nonce, Out, Pad, Sealed, Suite, Text, WrapKey, WrapText, Wrapping};

// The specification of an argument.
fn spec_of(argument: Argument) -> &'static ArgSpec {
    match argument {
        Suite => &SUITE_ARG,
        Key => &KEY_ARG,
        Nonce => &NONCE_ARG,
        Aad => &AAD_ARG,
        Text => &TEXT_ARG,
        Sealed => &SEALED_ARG,
        In => &IN_ARG,
        Out => &OUT_ARG,
        WrapKey => &WRAP_KEY_ARG,
        WrapText => &WRAP_TEXT_ARG,
        Wrapping => &WRAPPING_ARG,
        Pad => &PAD_ARG,
        File => &FILE_ARG,
    }
}

// A subcommand: its description in one line, the rest of its help, and its arguments.
struct CommandSpec {
    name: &'static str,
    about: &'static str,
    more: &'static str,
    args: &'static [Argument],
}

const SUBCOMMANDS: [CommandSpec; 7] = [
    CommandSpec { name: SEAL, about: "Seals a text", more: SEAL_MORE, args: &[Suite, Key, Nonce, Aad, Text] },
    CommandSpec { name: OPEN, about: "Opens sealed bytes", more: OPEN_MORE, args: &[Suite, Key, Nonce, Aad, Sealed] },
    CommandSpec { name: WRAP, about: "Wraps a text by AES Key Wrap", more: WRAP_MORE, args: &[WrapKey, WrapText, Pad] },
    CommandSpec {
        name: UNWRAP,
        about: "Unwraps the bytes of a wrapping",
        more: UNWRAP_MORE,
        args: &[WrapKey, Wrapping, Pad],
    },
    CommandSpec {
        name: SEAL_FILE,
        about: "Seals a file into another",
        more: SEAL_FILE_MORE,
        args: &[Suite, Key, Nonce, Aad, In, Out],
    },
    CommandSpec {
        name: OPEN_FILE,
        about: "Opens a sealed file into another",
        more: OPEN_FILE_MORE,
        args: &[Suite, Key, Nonce, Aad, In, Out],
    },
    CommandSpec {
        name: CHECK,
        about: "Checks each record of a vector file against its standard",
        more: CHECK_MORE,
        args: &[File],
    },
];

// An argument, for clap.
fn arg_of<'a>(alloc: Global, spec: &ArgSpec) -> Arg<'a> {
    let word = Arg::new(alloc, spec.name)
        .value_name(spec.value)
        .help(spec.help)
        .required(spec.is_required)
        .action(spec.action);
    if spec.is_option { word.long(spec.name) } else { word }
}

// A subcommand, for clap.
fn subcommand<'a>(alloc: Global, spec: &CommandSpec) -> Result<Command<'a>, AllocError> {
    let mut command = Command::new(alloc, spec.name).about(spec.about).after_help(spec.more);
    for arg in spec.args {
        command = command.arg(arg_of(alloc, spec_of(*arg)))?;
    }
    Ok(command)
}

// The program's command line.
pub(in crate::command) fn command<'a>(alloc: Global) -> Result<Command<'a>, AllocError> {
    let mut program = Command::new(alloc, "aeadkit")
        .about("Authenticated encryption and key wrapping by published standards")
        .after_help(ABOUT_HEX)
        .version(VERSION)
        .no_binary_name(true)
        .subcommand_required(true)
        .bin_name("aeadkit")?;
    for spec in &SUBCOMMANDS {
        program = program.subcommand(subcommand(alloc, spec)?)?;
    }
    Ok(program)
}
