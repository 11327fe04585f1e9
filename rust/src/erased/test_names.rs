// From crates/test_names/src/main.rt, by tools/erase.

//! Answers questions on names: `stdin` has them, a line each, and `stdout` their answers.
//!
//! | question | answer |
//! |---|---|
//! | `name NAME` | how the name is mangled, its complete text, its trimmed text and its crate (`-` for none) |
//! | `before NAME` | none: from here on each name is also asked of one demangler, after this one |
//! | `crate NAME` | the crate alone |
//! | `shown NAME` | the trimmed text and what follows the mangling |
//! | `kept NAME` | how the name is mangled, its limits aside, and the part of it that is kept |
//! | `text TEXT` | the text with complete and with trimmed names |
//! | `sizes TEXT` | how many bytes the text has with complete and with trimmed names |
//! | `stream TEXT` | the text with trimmed names, whichever way it comes, or `unchanged` |
//! | `fails TEXT` | the text with trimmed names where the reader then fails, and how that ends |
//! | `pairs NAME` | how deep the complete text is a tuple of two equal texts, and the innermost one |
//! | `end NAME` | the last 14 bytes of the complete text |
//! | `punycode ASCII\|CODE` | the text of an ASCII part and a code, or `none` |
//! | `limits PART` | the levels and steps of a v0 name without its prefix |
//! | `visits PART` | how many of its parts are read for the complete text, for the trimmed text, and for none |
//!
//! In a question `\0A` is the byte 0x0A, and `\{3*ab}` is `ababab`. A remark begins with ` # `, and a line of its own
//! with `#`.

pub(crate) mod long_texts;
pub(crate) mod names;
pub(crate) mod parts;
pub(crate) mod streams;
pub(crate) mod texts;

use crate::shim::{HostRuntime, String, Vec};
use crate::erased::test_names::long_texts::{push_end, push_pairs};
use crate::erased::test_names::names::{Names, push_crate, push_kept};
use crate::erased::test_names::parts::{push_limits, push_visits};
use crate::erased::test_names::streams::{push_failed, push_streamed};
use crate::erased::test_names::texts::{push_decoded, push_filtered, push_sizes, unescaped};
use crate::shim::alloc::Global;
use crate::shim::io::{self, Error, ErrorKind, Read, Write};
use std::process::ExitCode;
use core::str::from_utf8;

pub fn main(rt: HostRuntime) -> ExitCode {
    match run(rt.alloc(), &mut rt.stdin(), &mut io::writer(&rt)) {
        Ok(()) => ExitCode::SUCCESS,
        Err(e) => {
            let _ = rt.println(format_args!("{e}"));
            ExitCode::FAILURE
        }
    }
}

/// Writes the answers of all questions that the reader gives.
///
/// # Errors
///
/// `InvalidData` if a line is no question; the answers of those before were written. The other errors are those of
/// the reader, of the writer, and of a failed allocation.
pub fn run<R: Read, W: Write>(alloc: Global, input: &mut R, output: &mut W) -> io::Result<()> {
    let mut bytes = Vec::new(alloc);
    input.read_to_end(&mut bytes)?;
    let lines = text_of(bytes.as_slice())?;
    let mut names = Names::new(alloc);
    let mut line = String::new(alloc);
    for question in lines.lines() {
        if !question.is_empty() && !question.starts_with('#') {
            line.clear();
            push_answer(alloc, &mut names, &mut line, question)?;
            output.write_all(line.as_str().as_bytes())?;
        }
    }
    Ok(())
}

fn text_of(bytes: &[u8]) -> io::Result<&str> {
    match from_utf8(bytes) {
        Ok(text) => Ok(text),
        Err(_) => Err(Error::from(ErrorKind::InvalidData)),
    }
}

// Appends the line that answers a question.
fn push_answer(
    alloc: Global,
    names: &mut Names,
    line: &mut String,
    question: &str,
) -> io::Result<()> {
    let question = match question.split_once(" # ") {
        Some((question, _)) => question,
        None => question,
    };
    let (kind, asked) = question.split_once(' ').unwrap_or((question, ""));
    let bytes = unescaped(alloc, asked)?;
    if push_answer_to(alloc, names, line, kind, &bytes)? {
        line.push('\n')?;
    }
    Ok(())
}

// Appends the answer to a question of this kind, and returns whether it has one.
fn push_answer_to(
    alloc: Global,
    names: &mut Names,
    line: &mut String,
    kind: &str,
    bytes: &[u8],
) -> io::Result<bool> {
    if kind == "text" {
        push_filtered(alloc, line, bytes)?;
        return Ok(true);
    }
    let asked = text_of(bytes)?;
    match kind {
        "name" => names.push_answer(line, asked)?,
        "before" => {
            names.ask_after(asked)?;
            return Ok(false);
        }
        "crate" => push_crate(alloc, line, asked)?,
        "shown" => names.push_suffixed(line, asked)?,
        "kept" => push_kept(line, asked)?,
        "sizes" => push_sizes(alloc, line, asked.as_bytes())?,
        "stream" => push_streamed(alloc, line, asked.as_bytes())?,
        "fails" => push_failed(alloc, line, asked.as_bytes())?,
        "pairs" => push_pairs(alloc, line, asked)?,
        "end" => push_end(alloc, line, asked)?,
        "punycode" => push_decoded(line, asked)?,
        "limits" => push_limits(alloc, line, asked)?,
        "visits" => push_visits(alloc, line, asked)?,
        _ => return Err(Error::from(ErrorKind::InvalidData)),
    }
    Ok(true)
}
