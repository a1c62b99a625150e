// Made from crates/command/src/lib.rt by tools/erase: not to be edited.
//! The command line of `aeadkit`: what the program does with the words after its name, given a storage of files and a
//! writer for each standard stream.
//!
//! [`run`] does what the words ask for and returns the status. The program calls it with the system's files and streams.
//! From `crates/aeadkit/src/main.rt`:
//! ```text
//! let mut out = rt.stdout();
//! let mut err = rt.stderr();
//! ExitCode::from(match words_given(rt.alloc(), &rt) {
//!     Ok(words) => run(
//!         rt.alloc(),
//!         &Disk {
//!             runtime: &rt,
//!             alloc: rt.alloc(),
//!         },
//!         &words,
//!         &mut out,
//!         &mut err,
//!     ),
//!     Err(failure) => report(&mut err, failure),
//! })
//! ```

mod arguments;
mod commands;
mod failure;
mod file_intake;
mod files;
mod help;
mod identity;
mod new_file;
mod program;
mod readings;
mod storage;
mod subcommands;
mod version;
mod words;

pub use arguments::words_given;
pub use failure::Failure;
pub use files::write_new_file;
pub use identity::Identity;
pub use program::{perform, report, respond, run};
pub use storage::{Disk, Storage};
pub use version::VERSION;
pub use words::{FileCommand, FileRequest, Inputs, PrintRequest, Refusal, Request};
