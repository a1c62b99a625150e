"""What needs more than deletion: the list of rewrites, each with its reason. A rewrite that matches nothing is an error."""

LIBRARY = "octets chacha poly1305 gf128 aes keywrap aead capi".split()
PROGRAM = "vectors command aeadkit".split()

# Where the names that a source takes from a library of the kit stand in Rust. `None` serves proofs alone. The longest one counts,
# and a path that is not here is refused.
COMMON = {
    "std::alloc": "crate::kit::alloc",  # an allocation may fail, and a vector names its allocator
    "std::error::Error": "core::error::Error",
    "std::fmt": "core::fmt",
    "std::io": "std::io",
    "std::marker::Model": None,
    "std::marker::PhantomData": "core::marker::PhantomData",
}
LIBRARY_NAMES = COMMON | {
    "byteorder": "crate::kit::byteorder",
    "std::simd": "crate::simd",  # Rust's own is not stable
    "std::simd::prelude::*": None,  # the names that a source uses are imported one by one
}
PROGRAM_NAMES = COMMON | {
    "bumpalo": "crate::kit::bumpalo",
    "clap": "crate::kit::clap",
    "hex": "crate::kit::hex",
    "memchr": "memchr",
    "rand_chacha": "crate::kit::rand_chacha",
    "std::cell": "std::cell",
    "std::convert::AsStr": "crate::kit::AsStr",
    "std::env": "crate::kit::env",
    "std::fmt": "std::fmt",
    "std::fmt::InlineText": "crate::kit::InlineText",
    "std::fs": "crate::kit::fs",
    "std::os::unix::fs": "std::os::unix::fs",
    "std::os::unix::fs::symlink": "crate::kit::fs::symlink",
    "std::io::BufReader": "crate::kit::io::BufReader",
    "std::process::Abort": "crate::kit::Abort",
    "std::process::ExitCode": "std::process::ExitCode",
    "std::rt::Env": "crate::kit::env::Env",
    "std::rt::Files": "crate::kit::fs::Files",
    "std::str::from_utf8": "std::str::from_utf8",
}

# The names that a source has without an import, and that Rust has not, or has for something else.
PRELUDE = {
    "Alloc": "crate::kit::Alloc",
    "HostRuntime": "crate::kit::HostRuntime",
    "Places": "crate::simd::Places",
    "String": "crate::kit::String",
    "Vec": "crate::kit::alloc::Vec",
}

# The traits of `std` and the kit that are imported for their methods.
TRAITS = "AsStr ByteOrder FileTypeExt MetadataExt OpenFile Read Rng SeedableRng Write".split()

ANY = ""
OCTETS, CAPI = "crates/octets/src/", "crates/capi/src/"
MAIN, TESTS = "crates/aeadkit/src/main.rt", "crates/aeadkit/src/tests"

# (where, what, by what, why): `$name` stands for code up to what follows it. Those in one place for one reason are forms of one
# rewrite, of which at least one has to be found.
REWRITES = [
    (ANY, ".swizzle($places)", ".swizzle(const { Places::new($places) })",
     "LLVM makes one instruction of a move only if the places are constant before it unrolls a loop"),
    (ANY, ".shuffle($other, $places)", ".shuffle($other, const { Places::new($places) })", "as for `swizzle`"),
    (ANY, "prove!($what)", "assert!($what)", "a constant's assertion, which the compiler evaluates in both languages"),
    (ANY, "fn fmt<W: fmt::Write>(&self, f: &mut fmt::Formatter<W>)", "fn fmt(&self, f: &mut fmt::Formatter<'_>)",
     "Rust's trait has another signature"),
    ("crates/poly1305/src/partial_sum.rt", "fn clone(&self) -> Result<PartialSum<'a, M>, AllocError> { Ok(*self) }",
     "fn clone(&self) -> Self { *self }", "Rust's trait has another signature"),
    (OCTETS + "vector_width.rt", "pub fn wide() -> bool { false }", "pub fn wide() -> bool { crate::simd::WIDE }",
     "the module of vectors says what the target has"),
    ("crates/chacha/src/lanes.rt", "(z << Simd::splat(n)) | (z >> Simd::splat(32 - n))", "z.rotate_left(n)",
     "a rotation by bytes is one instruction, which LLVM does not find by itself without SSSE3"),
    (OCTETS + "lib.rt", "mod script;", '#[cfg(feature = "internals")] mod script;', "scripts of devices are for the tests"),
    (OCTETS + "lib.rt", "mod std_io;", '#[cfg(feature = "internals")] mod std_io;', "the library does without `std`"),
    (OCTETS + "lib.rt", "pub use script::{$names};", '#[cfg(feature = "internals")] pub use script::{$names};', "as its module"),
    (OCTETS + "lib.rt", "pub use std_io::{$names};", '#[cfg(feature = "internals")] pub use std_io::{$names};', "as its module"),
    (CAPI, '#[unsafe(no_mangle)] pub extern "C" fn', "pub fn",
     "Rust passes a slice to C by no stable convention, so exports.rs exports a function over pointer and length"),
    (CAPI + "lib.rt", "mod $name;", "pub mod $name;", "exports.rs calls what stands there"),
    ("crates/command/src/failure.rt", "fault.fmt(f)", "fmt::Display::fmt(fault, f)",
     "Rust finds a method only if its trait is imported by name"),
    (MAIN, "#[cfg(test)] mod tests;", "#[macro_use] mod kit; mod command; #[cfg(test)] mod tests; mod vectors;",
     "one crate has the modules of three, and its kit"),
    (MAIN, "fn main(rt: HostRuntime) -> ExitCode {", "fn main() -> ExitCode { let rt = HostRuntime;",
     "Rust's main takes nothing: every function may reach the system"),
    (TESTS, "#[test] fn $name(rt: HostRuntime) {", "#[test] fn $name() { let rt = HostRuntime;", "as for `main`"),
    (TESTS, ".replace(rt.alloc(), $what, $by).expect(rt, $why)", ".replace($what, $by)", "Rust's `replace` takes no allocator"),
    (TESTS, ".expect(rt, $why)", ".expect($why)", "what ends the program takes no handle in Rust"),
    (TESTS, ".expect(&rt, $why)", ".expect($why)", "what ends the program takes no handle in Rust"),
    (TESTS, "assert!(rt; $what)", "assert!($what)", "as for `expect`"),
]

MODULE = '''// Made by tools/erase: not to be edited.
//! The proved source: what is left of the repository's `crates/` without contracts and ghosts.

{lints}

{modules}
'''

# What the compiler or clippy would say of the erased sources, and why they stay as they are.
LINTS = [
    ("dead_code", "the tests, the program and the calls for C use more than this crate"),
    ("unused_imports", "the modules were crates, and hand over more than each user takes"),
    ("clippy::collapsible_if", "a proof follows each branch"),
    ("clippy::int_plus_one", "a limit is written as the standard has it"),
    ("clippy::large_enum_variant", "nothing here allocates"),
    ("clippy::len_zero", "the length is what the contract speaks of"),
    ("clippy::manual_div_ceil", "the proofs speak of a sum and a quotient"),
    ("clippy::manual_is_multiple_of", "the proofs speak of a remainder"),
    ("clippy::module_inception", "`aead::aead` has the trait `Aead`"),
    ("clippy::needless_range_loop", "a proof follows the index"),
    ("clippy::new_without_default", "nobody asks for a default"),
    ("clippy::question_mark", "a proof follows each branch"),
    ("clippy::too_many_arguments", "the parts of a message come one by one"),
]
PROGRAM_LINTS = [
    ("unused_imports", "the modules were crates, and hand over more than the program takes"),
    ("clippy::manual_is_ascii_check", "a file format says which bytes are digits"),
    ("clippy::manual_is_multiple_of", "the proofs speak of a remainder"),
    ("clippy::needless_range_loop", "a proof follows the index"),
    ("clippy::question_mark", "a proof follows each branch"),
]


def allowed(lints):
    """The attributes that allow lints, each with its reason."""
    return "\n".join(f'#![allow({lint}, reason = "{why}")]' for lint, why in lints)
