//! The system that the program runs on.

use super::alloc::Global;

#[derive(Clone, Copy)]
pub struct HostRuntime;

impl HostRuntime {
    pub fn alloc(&self) -> Global {
        Global
    }
}

#[cfg(not(unix))]
impl HostRuntime {
    pub fn stdout(&self) -> std::io::Stdout {
        std::io::stdout()
    }

    pub fn stderr(&self) -> std::io::Stderr {
        std::io::stderr()
    }
}

#[cfg(unix)]
impl HostRuntime {
    pub fn stdout(&self) -> streams::Stream {
        streams::Stream::new(&std::io::stdout())
    }

    pub fn stderr(&self) -> streams::Stream {
        streams::Stream::new(&std::io::stderr())
    }
}

/// The standard streams as files: std's own take a write to a stream that is closed for a success.
#[cfg(unix)]
mod streams {
    use std::fs::File;
    use std::io::{Result, Write};
    use std::os::fd::AsFd;

    pub struct Stream(Result<File>);

    impl Stream {
        pub fn new(stream: &impl AsFd) -> Self {
            Stream(stream.as_fd().try_clone_to_owned().map(File::from))
        }
    }

    impl Write for Stream {
        fn write(&mut self, bytes: &[u8]) -> Result<usize> {
            match &mut self.0 {
                Ok(file) => file.write(bytes),
                Err(error) => Err(error.kind().into()),
            }
        }

        fn flush(&mut self) -> Result<()> {
            Ok(())
        }
    }
}

/// Before `main`, Rust's runtime opens the null device in the place of a standard stream that is closed, and a sealing would be
/// lost there with status 0. So the descriptor is taken before that by a folder, which cannot be written.
#[cfg(target_os = "linux")]
mod closed_streams {
    use std::ffi::{c_char, c_int};

    unsafe extern "C" {
        fn fcntl(descriptor: c_int, command: c_int, ...) -> c_int;
        fn open(path: *const c_char, flags: c_int, ...) -> c_int;
    }
    const F_GETFD: c_int = 1;

    extern "C" fn occupy() {
        for descriptor in 0..3 {
            // SAFETY: calls of the C library, without memory but a text that ends in a zero byte.
            unsafe {
                if fcntl(descriptor, F_GETFD) == -1 {
                    open(c"/".as_ptr(), 0);
                }
            }
        }
    }

    // SAFETY: the section holds pointers to functions that the loader calls before `main`.
    #[used]
    #[unsafe(link_section = ".init_array")]
    static OCCUPY: extern "C" fn() = occupy;
}
