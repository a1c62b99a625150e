// Made from crates/aead/src/engine.rt by tools/erase: not to be edited.
//! Sealing and opening of streams in buffers of a fixed size: three engines, and the passes over a reading that they
//! share.

mod measure;
mod open;
mod opening;
mod passes;
mod seal;
mod seal_siv;
mod stage;

pub use open::open_stream;
pub use seal::seal_stream;
pub use seal_siv::seal_siv_stream;
