//! The libraries that the proved source uses, by the names that they have in Rattle, over those of Rust.

pub mod alloc;
pub mod byteorder;
