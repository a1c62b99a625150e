// Made from crates/command/src/version.rt by tools/erase: not to be edited.
//! The version of the repository.

/// The version. The packages take it from here.
// A struct for C of another size makes another major version: a program has the room that it was compiled with.
pub const VERSION: &str = "3.0.0";
