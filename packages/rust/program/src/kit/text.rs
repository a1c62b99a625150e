//! Texts whose allocations can fail, and short ones that allocate nothing.

use super::alloc::{AllocError, Allocator, Global, Vec};
use std::fmt::{self, Write};
use std::ops::Deref;

/// A text in memory of an allocator.
pub struct String<A: Allocator = Global> {
    bytes: Vec<u8, A>,
}

impl<A: Allocator> String<A> {
    pub fn new(alloc: A) -> Self {
        String { bytes: Vec::new(alloc) }
    }

    /// The text of hexadecimal digits.
    pub(super) fn of_digits(digits: Vec<u8, A>) -> Self {
        String { bytes: digits }
    }

    pub fn push(&mut self, character: char) -> Result<(), AllocError> {
        self.push_str(character.encode_utf8(&mut [0; 4]))
    }

    pub fn push_str(&mut self, text: &str) -> Result<(), AllocError> {
        self.bytes.extend_from_slice(text.as_bytes())
    }

    /// What `writeln!` calls. The only error is a failed allocation.
    pub fn write_fmt(&mut self, words: fmt::Arguments<'_>) -> Result<(), AllocError> {
        Appended(self).write_fmt(words).map_err(|_| AllocError)
    }
}

/// What `format!` makes.
pub fn formatted<A: Allocator>(alloc: A, words: fmt::Arguments<'_>) -> Result<String<A>, AllocError> {
    let mut text = String::new(alloc);
    text.write_fmt(words)?;
    Ok(text)
}

struct Appended<'a, A: Allocator>(&'a mut String<A>);

impl<A: Allocator> Write for Appended<'_, A> {
    fn write_str(&mut self, text: &str) -> fmt::Result {
        self.0.push_str(text).map_err(|_| fmt::Error)
    }
}

impl<A: Allocator> Deref for String<A> {
    type Target = str;

    fn deref(&self) -> &str {
        str::from_utf8(&self.bytes).expect("only whole texts are appended")
    }
}

impl<A: Allocator> fmt::Debug for String<A> {
    fn fmt(&self, f: &mut fmt::Formatter<'_>) -> fmt::Result {
        (**self).fmt(f)
    }
}

/// A text of at most `N` bytes.
pub struct InlineText<const N: usize> {
    bytes: [u8; N],
    length: usize,
}

impl<const N: usize> InlineText<N> {
    pub fn new() -> Self {
        InlineText { bytes: [0; N], length: 0 }
    }

    pub fn as_str(&self) -> &str {
        str::from_utf8(&self.bytes[..self.length]).expect("only whole texts are appended")
    }
}

impl<const N: usize> Write for InlineText<N> {
    fn write_str(&mut self, text: &str) -> fmt::Result {
        let room = self.bytes.get_mut(self.length..self.length + text.len()).ok_or(fmt::Error)?;
        room.copy_from_slice(text.as_bytes());
        self.length += text.len();
        Ok(())
    }
}
