//! Memory whose requests can fail.

use alloc::string::String;
use alloc::vec::Vec;
use core::fmt;

/// The memory that every value is made in: that of the process.
#[derive(Debug, Clone, Copy)]
pub struct Global;

/// An allocation failed.
#[derive(Debug, Clone, Copy, PartialEq, Eq)]
pub struct AllocError;

impl fmt::Display for AllocError {
    fn fmt(&self, f: &mut fmt::Formatter<'_>) -> fmt::Result {
        f.write_str("memory allocation failed")
    }
}

impl super::error::Error for AllocError {}

impl From<AllocError> for super::io::Error {
    fn from(_: AllocError) -> Self {
        super::io::ErrorKind::OutOfMemory.into()
    }
}

/// Makes room for `more` items. The shim's `Vec`, `String` and `BTreeMap` grow here and in `reserve_text` alone.
#[inline(always)]
pub(super) fn reserve<T>(items: &mut Vec<T>, more: usize) -> Result<(), AllocError> {
    if items.capacity() - items.len() >= more {
        return Ok(());
    }
    #[cfg(test)]
    super::test::count_allocation()?;
    items.try_reserve(more).map_err(|_| AllocError)
}

/// Makes room for `more` bytes of a text.
#[inline(always)]
pub(super) fn reserve_text(text: &mut String, more: usize) -> Result<(), AllocError> {
    if text.capacity() - text.len() >= more {
        return Ok(());
    }
    #[cfg(test)]
    super::test::count_allocation()?;
    text.try_reserve(more).map_err(|_| AllocError)
}
