// From crates/test_needs/src/main.rt, by tools/erase.

//! Answers what files need from others: `stdin` has the files, a line each, and `stdout` their answers.
//!
//! A line begins with `lines`, `full`, `raw` or `objects`, the form of the answer. Then come the bytes of the file in
//! hexadecimal digits, in words; `9*00` is nine bytes of zero. Or it begins with `names`, before a name of which the texts
//! are asked for, or with `bindings`, before numbers of which the words are. A line that begins with `#` is a remark, and is
//! answered by itself.

use crate::shim::{HostRuntime, String, Vec};
use crate::erased::binfarce_figures::rows::{Naming, put_name, word_of};
use crate::erased::binfarce_names::demangle::Demangler;
use crate::erased::binfarce_needs::{Lack, needs_text, unread};
use crate::erased::binfarce_rows::json::Form;
use crate::erased::binfarce_tables::ReadError;
use crate::erased::binfarce_text::digits::hex_value;
use crate::shim::alloc::{AllocError, Global};
use crate::shim::io::{self, Error, ErrorKind, Read, Write};
use std::process::ExitCode;
use core::str::from_utf8;

pub fn main(rt: HostRuntime) -> ExitCode {
    match run(rt.alloc(), &mut rt.stdin(), &mut io::writer(&rt)) {
        Ok(()) => ExitCode::SUCCESS,
        Err(e) => {
            let _ = rt.println(format_args!("{e}"));
            ExitCode::FAILURE
        }
    }
}

/// Writes the answers of all files that the reader gives.
///
/// # Errors
///
/// `InvalidData` if a line is no file; the answers of those before were written. The other errors are those of the
/// reader, of the writer, and of a failed allocation.
pub fn run<R: Read, W: Write>(alloc: Global, input: &mut R, output: &mut W) -> io::Result<()> {
    let mut bytes = Vec::new(alloc);
    input.read_to_end(&mut bytes)?;
    let Ok(lines) = from_utf8(bytes.as_slice()) else {
        return Err(Error::from(ErrorKind::InvalidData));
    };
    for line in lines.lines() {
        if line.starts_with('#') {
            output.write_all(line.as_bytes())?;
            output.write_all(b"\n")?;
        } else if !line.is_empty() {
            let answer = answer_of(alloc, line)?;
            output.write_all(answer.as_str().as_bytes())?;
        }
    }
    Ok(())
}

// The lines that answer this one.
fn answer_of(alloc: Global, line: &str) -> io::Result<String> {
    let mut words = line.split(' ');
    let (naming, form) = match words.next() {
        Some("lines") => (Naming::Trimmed, Form::Lines),
        Some("full") => (Naming::Complete, Form::Lines),
        Some("raw") => (Naming::Stored, Form::Lines),
        Some("objects") => (Naming::Trimmed, Form::Objects("a \"file\"", "")),
        Some("names") => return Ok(texts_of(alloc, words.next().unwrap_or(""))?),
        Some("bindings") => return Ok(bindings_of(alloc, line)?),
        _ => return Err(Error::from(ErrorKind::InvalidData)),
    };
    let mut file = Vec::new(alloc);
    for word in words {
        push_bytes(&mut file, word)?;
    }
    match needs_text(alloc, &file.as_slice(), &mut (), naming, form) {
        Ok(text) => Ok(text),
        Err(lack) => Ok(words_of(alloc, lack)?),
    }
}

// What is shown of a name: trimmed, complete, and as it is stored.
fn texts_of(alloc: Global, name: &str) -> Result<String, AllocError> {
    let mut demangler = Demangler::new(alloc);
    let mut text = String::new(alloc);
    let mut shown = String::new(alloc);
    for naming in [Naming::Trimmed, Naming::Complete, Naming::Stored] {
        put_name(&mut demangler, &mut shown, naming, name)?;
        text.push_str(shown.as_str())?;
        text.push_str("\n")?;
    }
    Ok(text)
}

// The words for the bindings with the numbers of this line.
fn bindings_of(alloc: Global, line: &str) -> Result<String, AllocError> {
    let mut text = String::new(alloc);
    for number in line.split(' ').skip(1) {
        text.push_str(word_of(number.parse::<u8>().unwrap_or(0)).unwrap_or("none"))?;
        text.push_str("\n")?;
    }
    Ok(text)
}

// Why there are no symbols, in a line.
fn words_of(alloc: Global, lack: Lack) -> io::Result<String> {
    let line = match lack {
        Lack::UnknownFormat => String::from_str(alloc, "unknown format\n")?,
        Lack::NotElf(other) => {
            let words = unread(other);
            String::formatted(alloc, format_args!("{words}\n"))?
        }
        Lack::Read(ReadError::Refused(e)) => String::formatted(alloc, format_args!("{e}\n"))?,
        Lack::Read(ReadError::Unreadable) => String::from_str(alloc, "unreadable\n")?,
        Lack::Read(ReadError::OutOfMemory) => String::from_str(alloc, "out of memory\n")?,
    };
    Ok(line)
}

// Appends the bytes of a word, as often as it says.
fn push_bytes(file: &mut Vec<u8>, word: &str) -> io::Result<()> {
    let (count, digits) = match word.split_once('*') {
        Some((count, digits)) => (count.parse::<usize>().unwrap_or(0), digits),
        None => (1, word),
    };
    for _ in 0..count {
        for pair in digits.as_bytes().chunks(2) {
            file.push(byte_of(pair)?)?;
        }
    }
    Ok(())
}

// The byte of two hexadecimal digits.
fn byte_of(pair: &[u8]) -> io::Result<u8> {
    if let [high, low] = pair {
        if let (Some(high), Some(low)) = (hex_value(*high), hex_value(*low)) {
            return Ok(high * 16 + low);
        }
    }
    Err(Error::from(ErrorKind::InvalidData))
}
