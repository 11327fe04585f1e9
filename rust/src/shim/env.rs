//! The program's arguments.

use super::HostRuntime;
use super::string::String;
use std::ffi::{OsStr, OsString};
use std::io;

thread_local! {
    // They are taken once, since each call of the standard library copies all.
    static ARGUMENTS: Vec<OsString> = std::env::args_os().collect();
}

/// Why a buffer was not filled.
#[derive(Debug, PartialEq)]
pub enum FillError {
    NotPresent,
    TooLong,
}

/// Access to the arguments.
pub trait Env {
    /// Copies the bytes of an argument to the start of the buffer, and returns their number.
    fn arg(&self, i: usize, buf: &mut [u8]) -> Result<usize, FillError>;
}

impl Env for HostRuntime {
    fn arg(&self, i: usize, buf: &mut [u8]) -> Result<usize, FillError> {
        ARGUMENTS.with(|arguments| {
            let word = bytes_of(arguments.get(i).ok_or(FillError::NotPresent)?);
            buf.get_mut(..word.len()).ok_or(FillError::TooLong)?.copy_from_slice(word);
            Ok(word.len())
        })
    }
}

#[cfg(unix)]
fn bytes_of(word: &OsStr) -> &[u8] {
    std::os::unix::ffi::OsStrExt::as_bytes(word)
}

// Of a word that isn't Unicode, bytes that aren't UTF-8.
#[cfg(not(unix))]
fn bytes_of(word: &OsStr) -> &[u8] {
    word.to_str().map_or(b"\xff", str::as_bytes)
}

/// The program's name and its arguments. An error if one isn't UTF-8.
pub fn args(_: &HostRuntime) -> io::Result<impl Iterator<Item = String>> {
    let words: Option<Vec<_>> = std::env::args_os().map(|word| word.into_string().ok()).collect();
    let words = words.ok_or(io::ErrorKind::InvalidData)?;
    Ok(words.into_iter().map(String::from))
}
