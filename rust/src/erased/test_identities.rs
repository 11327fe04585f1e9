// From crates/test_identities/src/main.rt, by tools/erase.

//! Answers what says from which build files are: `stdin` has the files, a line each, and `stdout` their answers.
//!
//! A line begins with `alone`, `named` or `object`, the form of the answer. Then come the bytes of the file in hexadecimal
//! digits, in words; `9*00` is nine bytes of zero. A line that begins with `#` is a remark.

use crate::shim::{HostRuntime, String, Vec};
use crate::erased::binfarce_identity::{Lack, Style, identity_line, lacked};
use crate::erased::binfarce_tables::ReadError;
use crate::erased::binfarce_text::digits::hex_value;
use crate::shim::alloc::Global;
use crate::shim::io::{self, Error, ErrorKind, Read, Write};
use std::process::ExitCode;
use core::str::from_utf8;

pub fn main(rt: HostRuntime) -> ExitCode {
    match run(rt.alloc(), &mut rt.stdin(), &mut io::writer(&rt)) {
        Ok(()) => ExitCode::SUCCESS,
        Err(e) => {
            let _ = rt.println(format_args!("{e}"));
            ExitCode::FAILURE
        }
    }
}

/// Writes the answers of all files that the reader gives.
///
/// # Errors
///
/// `InvalidData` if a line is no file; the answers of those before were written. The other errors are those of the
/// reader, of the writer, and of a failed allocation.
pub fn run<R: Read, W: Write>(alloc: Global, input: &mut R, output: &mut W) -> io::Result<()> {
    let mut bytes = Vec::new(alloc);
    input.read_to_end(&mut bytes)?;
    let Ok(lines) = from_utf8(bytes.as_slice()) else {
        return Err(Error::from(ErrorKind::InvalidData));
    };
    for line in lines.lines() {
        if !line.is_empty() && !line.starts_with('#') {
            let answer = answer_of(alloc, line)?;
            output.write_all(answer.as_str().as_bytes())?;
        }
    }
    Ok(())
}

// The line that answers this one.
fn answer_of(alloc: Global, line: &str) -> io::Result<String> {
    let mut words = line.split(' ');
    let style = match words.next() {
        Some("alone") => Style::Alone,
        Some("named") => Style::Named("a file"),
        Some("object") => Style::Object("a \"file\""),
        _ => return Err(Error::from(ErrorKind::InvalidData)),
    };
    let mut file = Vec::new(alloc);
    for word in words {
        push_bytes(&mut file, word)?;
    }
    match identity_line(alloc, &file.as_slice(), &mut (), style) {
        Ok(line) => Ok(line),
        Err(lack) => Ok(words_of(alloc, lack)?),
    }
}

// Why there is no identity, in a line.
fn words_of(alloc: Global, lack: Lack) -> io::Result<String> {
    let line = match lack {
        Lack::UnknownFormat => String::from_str(alloc, "unknown format\n")?,
        Lack::NoIdentity(kind) => {
            let words = lacked(kind);
            String::formatted(alloc, format_args!("{words}\n"))?
        }
        Lack::Read(ReadError::Refused(e)) => String::formatted(alloc, format_args!("{e}\n"))?,
        Lack::Read(ReadError::Unreadable) => String::from_str(alloc, "unreadable\n")?,
        Lack::Read(ReadError::OutOfMemory) => String::from_str(alloc, "out of memory\n")?,
    };
    Ok(line)
}

// Appends the bytes of a word, as often as it says.
fn push_bytes(file: &mut Vec<u8>, word: &str) -> io::Result<()> {
    let (count, digits) = match word.split_once('*') {
        Some((count, digits)) => (count.parse::<usize>().unwrap_or(0), digits),
        None => (1, word),
    };
    for _ in 0..count {
        for pair in digits.as_bytes().chunks(2) {
            file.push(byte_of(pair)?)?;
        }
    }
    Ok(())
}

// The byte of two hexadecimal digits.
fn byte_of(pair: &[u8]) -> io::Result<u8> {
    if let [high, low] = pair {
        if let (Some(high), Some(low)) = (hex_value(*high), hex_value(*low)) {
            return Ok(high * 16 + low);
        }
    }
    Err(Error::from(ErrorKind::InvalidData))
}
