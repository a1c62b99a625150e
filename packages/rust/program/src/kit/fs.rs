//! The system's files.

use super::HostRuntime;
use std::fs::File;
pub use std::fs::Metadata;
use std::io::{Read, Result, Write};

/// A file that is open.
pub trait OpenFile {
    fn metadata(&self) -> Result<Metadata>;

    fn sync_all(&self) -> Result<()>;
}

impl OpenFile for File {
    fn metadata(&self) -> Result<Metadata> {
        File::metadata(self)
    }

    fn sync_all(&self) -> Result<()> {
        File::sync_all(self)
    }
}

/// What has access to files.
pub trait Files {
    type File: Read + Write + OpenFile;

    fn open(&self, path: &str) -> Result<Self::File>;

    fn create(&self, path: &str) -> Result<Self::File>;

    fn metadata(&self, path: &str) -> Result<Metadata>;
}

impl Files for HostRuntime {
    type File = File;

    fn open(&self, path: &str) -> Result<File> {
        File::open(path)
    }

    fn create(&self, path: &str) -> Result<File> {
        File::create(path)
    }

    fn metadata(&self, path: &str) -> Result<Metadata> {
        std::fs::metadata(path)
    }
}

pub fn open<R: Files>(runtime: &R, path: &str) -> Result<R::File> {
    runtime.open(path)
}

pub fn create<R: Files>(runtime: &R, path: &str) -> Result<R::File> {
    runtime.create(path)
}

pub fn metadata<R: Files>(runtime: &R, path: &str) -> Result<Metadata> {
    runtime.metadata(path)
}

#[cfg(test)]
pub use tests_only::*;

#[cfg(test)]
mod tests_only {
    use super::{Files, Result};

    pub fn write<R: Files>(_: &R, path: &str, bytes: &[u8]) -> Result<()> {
        std::fs::write(path, bytes)
    }

    pub fn read<R: Files>(_: &R, path: &str) -> Result<Vec<u8>> {
        std::fs::read(path)
    }

    pub fn hard_link<R: Files>(_: &R, original: &str, link: &str) -> Result<()> {
        std::fs::hard_link(original, link)
    }

    pub fn symlink<R: Files>(_: &R, original: &str, link: &str) -> Result<()> {
        std::os::unix::fs::symlink(original, link)
    }

    pub fn create_dir<R: Files>(_: &R, path: &str) -> Result<()> {
        std::fs::create_dir(path)
    }

    pub fn remove_dir_all<R: Files>(_: &R, path: &str) -> Result<()> {
        std::fs::remove_dir_all(path)
    }
}
