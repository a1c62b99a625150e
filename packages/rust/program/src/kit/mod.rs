//! What the sources take of the toolchain's libraries, over the crates of the same names and the standard library. In
//! the toolchain an allocation can fail and returns a result, and the system is a value that is handed down.

use aeadkit::internals::kit::alloc::Allocator;

/// `vec![in alloc; item; count]` and `format!(in alloc; ..)`: what allocates returns a `Result`.
macro_rules! vec {
    (in $alloc:expr; $item:expr; $count:expr) => {
        crate::kit::alloc::Vec::filled($alloc, $item, $count)
    };
}
macro_rules! format {
    (in $alloc:expr; $($words:tt)*) => {
        crate::kit::text::formatted($alloc, format_args!($($words)*))
    };
}

pub mod clap;
pub mod env;
pub mod fs;
pub mod hex;
mod host;
pub mod io;
mod memory;
#[cfg(test)]
mod tests_only;
pub mod text;

pub use aeadkit::internals::kit::alloc;
pub use host::HostRuntime;
#[cfg(test)]
pub use tests_only::{Abort, Alloc, bumpalo, rand_chacha};
pub use text::{InlineText, String};

/// A text, however it is held.
pub trait AsStr {
    fn as_str(&self) -> &str;
}

impl AsStr for &str {
    fn as_str(&self) -> &str {
        self
    }
}

impl<A: Allocator> AsStr for String<A> {
    fn as_str(&self) -> &str {
        self
    }
}
