//! `String`, whose every growth can fail.

use super::alloc::{AllocError, Global, reserve_text};
use super::vec::Vec;
use alloc::string;
use core::fmt::{self, Write};
use core::ops::{Deref, DerefMut};

/// A text in memory of its own. Beside its own methods it has those of `str` alone.
#[derive(PartialEq, Eq, PartialOrd, Ord, Hash)]
pub struct String(string::String);

impl String {
    /// An empty text, and no memory.
    #[inline]
    pub fn new(_: Global) -> String {
        String(string::String::new())
    }

    /// An empty text, and room for this many bytes.
    #[inline]
    pub fn with_capacity(alloc: Global, capacity: usize) -> Result<String, AllocError> {
        let mut text = String::new(alloc);
        text.reserve(capacity)?;
        Ok(text)
    }

    /// A copy of the text.
    #[inline]
    #[allow(clippy::should_implement_trait)]
    pub fn from_str(alloc: Global, text: &str) -> Result<String, AllocError> {
        let mut copy = String::new(alloc);
        copy.push_str(text)?;
        Ok(copy)
    }

    /// The text that these bytes are, in their memory.
    #[inline]
    pub fn from_utf8(bytes: Vec<u8>) -> Result<String, string::FromUtf8Error> {
        string::String::from_utf8(bytes.into_std()).map(String)
    }

    /// What `format!` makes.
    pub fn formatted(alloc: Global, arguments: fmt::Arguments<'_>) -> Result<String, AllocError> {
        let mut text = String::new(alloc);
        text.write_fmt(arguments)?;
        Ok(text)
    }

    /// Adds what `write!` writes. A value whose own `fmt` fails is refused as if memory was.
    pub fn write_fmt(&mut self, arguments: fmt::Arguments<'_>) -> Result<(), AllocError> {
        Ends(self).write_fmt(arguments).map_err(|_| AllocError)
    }

    /// Makes room for `more` bytes behind those that there are.
    #[inline]
    pub fn reserve(&mut self, more: usize) -> Result<(), AllocError> {
        reserve_text(&mut self.0, more)
    }

    /// Adds a character at the end.
    #[cfg_attr(not(debug_assertions), inline(always))]
    pub fn push(&mut self, c: char) -> Result<(), AllocError> {
        if c.is_ascii() && self.0.len() < self.0.capacity() {
            self.0.push(c);
            return Ok(());
        }
        self.push_str(c.encode_utf8(&mut [0; 4]))
    }

    /// Adds a text at the end.
    #[inline]
    pub fn push_str(&mut self, text: &str) -> Result<(), AllocError> {
        self.reserve(text.len())?;
        self.0.push_str(text);
        Ok(())
    }

    /// How many bytes there is room for.
    #[inline]
    pub fn capacity(&self) -> usize {
        self.0.capacity()
    }

    /// Removes the bytes behind the first `len`, which end a character.
    #[inline]
    pub fn truncate(&mut self, len: usize) {
        self.0.truncate(len);
    }

    /// Removes all.
    #[inline]
    pub fn clear(&mut self) {
        self.0.clear();
    }

    #[inline]
    pub fn as_str(&self) -> &str {
        &self.0
    }

    /// The text as std has it.
    #[inline]
    pub fn into_std(self) -> string::String {
        self.0
    }
}

// The end of a text, as `write!` writes to it.
struct Ends<'a>(&'a mut String);

impl Write for Ends<'_> {
    fn write_str(&mut self, text: &str) -> fmt::Result {
        self.0.push_str(text).map_err(|_| fmt::Error)
    }
}

impl From<string::String> for String {
    fn from(text: string::String) -> String {
        String(text)
    }
}

impl Deref for String {
    type Target = str;

    #[inline]
    fn deref(&self) -> &str {
        &self.0
    }
}

impl DerefMut for String {
    #[inline]
    fn deref_mut(&mut self) -> &mut str {
        &mut self.0
    }
}

impl core::borrow::Borrow<str> for String {
    #[inline]
    fn borrow(&self) -> &str {
        &self.0
    }
}

impl fmt::Debug for String {
    fn fmt(&self, f: &mut fmt::Formatter<'_>) -> fmt::Result {
        self.0.fmt(f)
    }
}

impl fmt::Display for String {
    fn fmt(&self, f: &mut fmt::Formatter<'_>) -> fmt::Result {
        self.0.fmt(f)
    }
}
