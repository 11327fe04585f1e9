// From crates/binfarce_io/src/message.rt, by tools/erase.

//! Why a file is refused, in words and as an object.

use crate::shim::String;
use crate::erased::binfarce_io::fault::Fault;
use crate::erased::binfarce_bytes::ParseError;
use crate::erased::binfarce_rows::json::{push_start, push_text_member};
use crate::erased::binfarce_sections::error::SectionError;
use crate::erased::binfarce_text::digits::hex_digit;
use crate::erased::binfarce_tools::report::ReportError;
use crate::shim::alloc::{AllocError, Global};
use core::fmt;
use crate::shim::io::Error;

/// Why a file is refused, in words.
#[derive(Debug)]
pub enum Message {
    /// Its fault.
    Fault(Fault),
    /// Words: the system's reason, or that there is no section of a name.
    Words(String),
}

impl fmt::Display for Message {
    fn fmt(&self, f: &mut fmt::Formatter<'_>) -> fmt::Result {
        match self {
            Message::Fault(fault) => write!(f, "{fault}"),
            Message::Words(words) => write!(f, "{words}"),
        }
    }
}

/// Why a file isn't placed.
#[derive(Debug, Clone, Copy, PartialEq)]
pub enum Unplaced<'a> {
    /// The maps have no file of this path, or of this name in it, if it has another.
    NotMapped(&'a str, Option<&'a str>),
    /// The file of this path has code, and the maps have neither this nor its first byte.
    NoCode(&'a str),
    /// The maps have the code of the file of this path at several addresses.
    Several(&'a str),
    /// It states no code segment with bytes, in which offsets would be.
    NoBytes,
}

impl<'a> fmt::Display for Unplaced<'a> {
    fn fmt(&self, f: &mut fmt::Formatter<'_>) -> fmt::Result {
        match self {
            Unplaced::NotMapped(path, None) => write!(
                f,
                "the maps have no file {path}; --as=NAME takes another name"
            ),
            Unplaced::NotMapped(path, Some(name)) => write!(
                f,
                "the maps have no file {path} or {name}; --as=NAME takes another name"
            ),
            Unplaced::NoCode(path) => write!(
                f,
                "the maps don't say where the code of {path} is; give --base, or more of the maps"
            ),
            Unplaced::Several(path) => write!(
                f,
                "{path} is at several addresses in the maps; give --base in place of --maps, or --as=PATH for one of several paths"
            ),
            Unplaced::NoBytes => write!(
                f,
                "no code segment with bytes; --offsets takes ELF programs and shared objects, and not their debug files"
            ),
        }
    }
}

/// The fault of a file that isn't placed: why in words, or that there is no memory for these.
pub fn unplaced_fault(alloc: Global, why: &Unplaced<'_>) -> Fault {
    match String::formatted(alloc, format_args!("{why}")) {
        Ok(words) => Fault::Unplaced(words),
        Err(e) => Fault::from(e),
    }
}

/// Why a file is refused: that it has no section of the name that is asked for; the system's reason, if a read or a
/// write failed; or that there is no memory for these words.
pub fn message_of(
    alloc: Global,
    fault: Fault,
    reason: Option<Error>,
    section: Option<&str>,
) -> Message {
    match (section, lacked(&fault)) {
        (Some(name), Some(rest)) => match String::formatted(alloc, format_args!("no section {name}{rest}")) {
            Ok(words) => Message::Words(words),
            Err(e) => Message::Fault(Fault::from(e)),
        },
        _ => reason_of(alloc, fault, reason),
    }
}

// What follows the name of a section that a file lacks for this fault. `None` if it lacks none.
fn lacked(fault: &Fault) -> Option<&'static str> {
    match fault {
        Fault::Section(SectionError::NoSection) => Some(""),
        Fault::Section(SectionError::Parse(ParseError::SymbolsSectionIsMissing))
        | Fault::Report(ReportError::Parse(ParseError::SymbolsSectionIsMissing)) => Some(
            "; binfarce section lists those of an ELF file; in others .text is the code",
        ),
        _ => None,
    }
}

// The system's reason for this fault, if there is one.
fn reason_of(alloc: Global, fault: Fault, reason: Option<Error>) -> Message {
    match reason {
        Some(e) if is_of_system(&fault) => match words_of(alloc, &e) {
            Ok(words) => Message::Words(words),
            Err(e) => Message::Fault(Fault::from(e)),
        },
        _ => Message::Fault(fault),
    }
}

// Whether the system has a reason for it: a failed read or write.
fn is_of_system(fault: &Fault) -> bool {
    fault.is_write() || matches!(fault, Fault::Section(SectionError::Unreadable))
}

/// Appends the refusal of a file as an object.
pub fn push_refusal(text: &mut String, file: &str, message: &str) -> Result<(), AllocError> {
    push_start(text, file)?;
    push_text_member(text, "error", Some(message))?;
    text.push_str("}\n")
}

/// The line on standard error that says these words, of the file at this path if there is one, without its line feed:
/// `binfarce: `, the path and `: `, and the words. In both each control character, U+0000 to U+001F and U+007F to
/// U+009F, is escaped as in JSON, as `\u000a`: none ends the line, or controls a terminal.
pub fn line_of(alloc: Global, path: Option<&str>, words: &str) -> Result<String, AllocError> {
    let mut line = String::from_str(alloc, "binfarce: ")?;
    if let Some(path) = path {
        push_escaped(&mut line, path)?;
        line.push_str(": ")?;
    }
    push_escaped(&mut line, words)?;
    Ok(line)
}

/// Appends a text with its control characters escaped, as in messages.
pub fn push_escaped(line: &mut String, text: &str) -> Result<(), AllocError> {
    for c in text.chars() {
        push_char(line, c)?;
    }
    Ok(())
}

fn push_char(line: &mut String, c: char) -> Result<(), AllocError> {
    match c {
        '\0'..='\x1f' | '\x7f'..='\u{9f}' => {
            line.push_str("\\u00")?;
            push_byte(line, c as u8)
        }
        _ => line.push(c),
    }
}

/// Appends a byte in two hexadecimal digits.
pub fn push_byte(text: &mut String, byte: u8) -> Result<(), AllocError> {
    text.push(hex_digit(u64::from(byte) / 16) as char)?;
    text.push(hex_digit(u64::from(byte) % 16) as char)
}

// The system's message without the number that is printed after it.
fn words_of(alloc: Global, e: &Error) -> Result<String, AllocError> {
    let text = String::formatted(alloc, format_args!("{e}"))?;
    match text.as_str().split_once(" (os error ") {
        Some((words, _)) => String::from_str(alloc, words),
        None => Ok(text),
    }
}
