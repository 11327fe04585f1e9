// From crates/test_lookups/src/main.rt, by tools/erase.

//! Answers questions of addresses, of sections, and of what is read of a file: one on each line of standard input. A
//! line that begins with `#` is a heading.
//!
//! A question of files is `QUESTION of FILE`, where `test_samples::cases` says how a file is described. If several
//! samples are described, each is answered. Ranges of a file are decimal, as `OFFSET+SIZE`; addresses are hexadecimal.

pub(crate) mod addresses;
pub(crate) mod ranges;
pub(crate) mod readings;
pub(crate) mod sections;
pub(crate) mod sources;
pub(crate) mod words;

use crate::shim::{HostRuntime, Vec};
use crate::erased::test_lookups::words::{end_line, known, words_of};
use crate::shim::alloc::Global;
use crate::shim::fs::File as Opened;
use crate::shim::io::{self, Read, Write};
use std::process::ExitCode;
use crate::erased::test_reading::{Asked, parts};
use crate::erased::test_samples::cases::{changed, samples_of};
use crate::erased::test_samples::files::{FILES, File};

pub fn main(rt: HostRuntime) -> ExitCode {
    let mut output = io::writer(&rt);
    let answered = run(rt.alloc(), &mut rt.reader(), &mut output);
    if answered.is_ok() && read_no_files(&rt, &mut output).is_ok() {
        ExitCode::SUCCESS
    } else {
        ExitCode::FAILURE
    }
}

/// Writes the answers to the questions of the input.
pub fn run<R: Read, W: Write>(alloc: Global, input: &mut R, output: &mut W) -> io::Result<()> {
    let mut questions = Vec::new(alloc);
    input.read_to_end(&mut questions)?;
    for question in core::str::from_utf8(&questions)
        .unwrap_or("not UTF-8")
        .lines()
    {
        let mut text = Vec::new(alloc);
        if answer(alloc, question, &mut text).is_err() {
            text.extend_from_slice(b"not a question\n")?;
        }
        output.write_all(&text)?;
    }
    Ok(())
}

// Adds the answer to a question.
fn answer(alloc: Global, question: &str, text: &mut Vec<u8>) -> io::Result<()> {
    if question.starts_with('#') {
        return Ok(());
    }
    if let Some((question, file)) = question.split_once(" of ") {
        return answer_of_files(alloc, question, file, text);
    }
    let (verb, words) = question.split_once(' ').unwrap_or((question, ""));
    match verb {
        "address" => addresses::push_address(words, text)?,
        "found" => addresses::push_found(alloc, words, text)?,
        "input" => addresses::push_answers(alloc, words, false, text)?,
        "return-input" => addresses::push_answers(alloc, words, true, text)?,
        "annotate" => addresses::push_annotated_text(alloc, words, false, false, text)?,
        "bare-annotate" => addresses::push_annotated_text(alloc, words, false, true, text)?,
        "return-annotate" => addresses::push_annotated_text(alloc, words, true, false, text)?,
        _ => ranges::answer(alloc, verb, words, text)?,
    }
    end_line(text, 0)
}

/// A question of a file.
#[derive(Clone, Copy)]
pub(crate) struct Asking<'a> {
    pub(crate) alloc: Global,
    pub(crate) kind: File,
    pub(crate) file: &'a [u8],
    /// The words after the first one, and those after the description of the file.
    pub(crate) words: &'a str,
    pub(crate) parts: &'a str,
}

fn answer_of_files(
    alloc: Global,
    question: &str,
    file: &str,
    text: &mut Vec<u8>,
) -> io::Result<()> {
    let (verb, words) = question.split_once(' ').unwrap_or((question, ""));
    let (file, parts) = file.split_once(": ").unwrap_or((file, ""));
    let (sample, changes) = file.split_once(' ').unwrap_or((file, ""));
    for kind in samples_of(sample) {
        let bytes = Vec::from_slice(alloc, kind.bytes())?;
        let file = known(changed(alloc, *kind, bytes, changes)?)?;
        let asking = Asking {
            alloc,
            kind: *kind,
            file: &file,
            words,
            parts,
        };
        answer_of_file(&asking, verb, text)?;
    }
    Ok(())
}

fn answer_of_file(asking: &Asking<'_>, verb: &str, text: &mut Vec<u8>) -> io::Result<()> {
    let start = text.len();
    match verb {
        "at" => addresses::push_lines(asking, false, text)?,
        "return" => addresses::push_lines(asking, true, text)?,
        "names" => sections::push_names(asking, text)?,
        "loaded" => readings::push_loaded(asking, text)?,
        "cut" => sections::push_cut(asking, text)?,
        "each" => sections::push_each(asking, text)?,
        _ => readings::answer(asking, verb, text)?,
    }
    end_line(text, start)
}

// Writes how the readers end that read what is no regular file.
fn read_no_files<W: Write>(rt: &HostRuntime, output: &mut W) -> io::Result<()> {
    for path in ["/", "/dev/null"] {
        let file = Opened::open(rt, path)?;
        for kind in FILES {
            let asked = Asked::Functions(Some(".text"));
            let answer = parts(rt.alloc(), kind, &file, &mut (), asked);
            output.write_all(&words_of(rt.alloc(), &answer.ended, "read")?)?;
            output.write_all(b"\n")?;
        }
    }
    Ok(())
}
