//! The words of the command line.

use super::alloc::{AllocError, Allocator, Global, Vec};
use super::{HostRuntime, String};
use std::io::{self, ErrorKind};

pub enum FillError {
    NotPresent,
    TooLong(usize),
    NotUnicode,
}

/// What has access to the words and the variables. Each call writes a text into the buffer and returns its length.
#[allow(dead_code, reason = "nothing of the program asks for a variable")]
pub trait Env {
    fn arg(&self, at: usize, buffer: &mut [u8]) -> Result<usize, FillError>;

    fn var(&self, _name: &str, _buffer: &mut [u8]) -> Result<usize, FillError> {
        Err(FillError::NotPresent)
    }

    fn var_at(&self, _at: usize, _buffer: &mut [u8]) -> Result<usize, FillError> {
        Err(FillError::NotPresent)
    }
}

impl Env for HostRuntime {
    fn arg(&self, at: usize, buffer: &mut [u8]) -> Result<usize, FillError> {
        let word = std::env::args_os().nth(at).ok_or(FillError::NotPresent)?;
        let word = word.to_str().ok_or(FillError::NotUnicode)?.as_bytes();
        buffer.get_mut(..word.len()).ok_or(FillError::TooLong(word.len()))?.copy_from_slice(word);
        Ok(word.len())
    }
}

/// The words that `args` found.
pub struct Args(std::vec::Vec<std::string::String>);

impl Args {
    pub fn collect(self, alloc: Global) -> Result<Vec<String>, AllocError> {
        let mut words = Vec::new(alloc);
        for word in self.0 {
            let mut text = String::new(alloc);
            text.push_str(&word)?;
            words.push(text)?;
        }
        Ok(words)
    }
}

pub fn args<E: Env, A: Allocator>(from: &(E, A)) -> io::Result<Args> {
    let mut words = std::vec::Vec::new();
    let mut buffer = std::vec::Vec::new();
    loop {
        match from.0.arg(words.len(), &mut buffer) {
            Ok(length) => {
                let word = std::string::String::from_utf8(buffer[..length].to_vec());
                words.push(word.map_err(|_| ErrorKind::InvalidData)?);
            }
            Err(FillError::TooLong(length)) => buffer.resize(length, 0),
            Err(FillError::NotPresent) => return Ok(Args(words)),
            Err(FillError::NotUnicode) => return Err(ErrorKind::InvalidData.into()),
        }
    }
}
