// Made by tools/erase: not to be edited.
//! The proved source: what is left of the repository's `crates/` without contracts and ghosts.

#![allow(dead_code, reason = "the tests, the program and the calls for C use more than this crate")]
#![allow(unused_imports, reason = "the modules were crates, and hand over more than each user takes")]
#![allow(clippy::collapsible_if, reason = "a proof follows each branch")]
#![allow(clippy::int_plus_one, reason = "a limit is written as the standard has it")]
#![allow(clippy::large_enum_variant, reason = "nothing here allocates")]
#![allow(clippy::len_zero, reason = "the length is what the contract speaks of")]
#![allow(clippy::manual_div_ceil, reason = "the proofs speak of a sum and a quotient")]
#![allow(clippy::manual_is_multiple_of, reason = "the proofs speak of a remainder")]
#![allow(clippy::module_inception, reason = "`aead::aead` has the trait `Aead`")]
#![allow(clippy::needless_range_loop, reason = "a proof follows the index")]
#![allow(clippy::new_without_default, reason = "nobody asks for a default")]
#![allow(clippy::question_mark, reason = "a proof follows each branch")]
#![allow(clippy::too_many_arguments, reason = "the parts of a message come one by one")]

pub mod aead;
pub mod aes;
pub mod capi;
pub mod chacha;
pub mod gf128;
pub mod keywrap;
pub mod octets;
pub mod poly1305;
