// From crates/test_formats/src/main.rt, by tools/erase.

//! Answers questions about files: standard input has one in a line, and its answer is written below it. The answers in
//! `stdout` are worked out by hand from the formats' descriptions.
//!
//! `QUESTION of FILE` asks about a file in words (`test_samples::cases`). Where these name several samples, it asks
//! about each, and an answer that is also that of the sample before isn't repeated. `elf(NAME,NAME)` names a 64-bit ELF
//! file of functions with these names. `fronts QUESTION of FILE` asks about the first bytes of the file, from none to
//! all: each answer has before it the least number of bytes that it is given for. A line that begins with `#` is a
//! heading.

pub(crate) mod calls;
pub(crate) mod charts;
pub(crate) mod elf;
pub(crate) mod images;
pub(crate) mod large;
pub(crate) mod macho;
pub(crate) mod pe;
pub(crate) mod programs;
pub(crate) mod symbols;
pub(crate) mod texts;
pub(crate) mod writers;

use crate::shim::{HostRuntime, String, Vec};
use crate::erased::binfarce::{ParseError, detect_format};
use crate::shim::alloc::{AllocError, Global};
use crate::shim::io::{self, Error, ErrorKind, Read, Write};
use std::process::ExitCode;
use crate::erased::test_samples::cases::{changed, samples_of};
use crate::erased::test_samples::elf::Layout;
use crate::erased::test_samples::files::File;
use crate::erased::test_samples::first_bytes;

pub fn main(rt: HostRuntime) -> ExitCode {
    match run(rt.alloc(), &mut rt.reader(), &mut io::writer(&rt)) {
        Ok(()) => ExitCode::SUCCESS,
        Err(_) => ExitCode::FAILURE,
    }
}

/// Writes the lines of the input, and the answers to their questions.
pub fn run<R: Read, W: Write>(alloc: Global, input: &mut R, output: &mut W) -> io::Result<()> {
    let mut bytes = Vec::new(alloc);
    input.read_to_end(&mut bytes)?;
    let Ok(text) = core::str::from_utf8(&bytes) else {
        return Err(Error::from(ErrorKind::InvalidData));
    };
    for line in text.lines() {
        output.write_all(line.as_bytes())?;
        output.write_all(b"\n")?;
        if !line.starts_with('#') {
            let mut answers = answers(alloc, line)?;
            if !answers.is_empty() && !answers.as_str().ends_with('\n') {
                answers.push('\n')?;
            }
            output.write_all(answers.as_bytes())?;
        }
    }
    Ok(())
}

// The answers to a question, each in lines of its own.
fn answers(alloc: Global, line: &str) -> Result<String, AllocError> {
    let (question, words) = line.split_once(" of ").unwrap_or((line, ""));
    let (what, rest) = question.split_once(' ').unwrap_or((question, ""));
    match what {
        "chart" => charts::chart_of(alloc, rest, words),
        "bars" => charts::bars_of(alloc, rest, words),
        "image" => images::refusal(alloc, rest),
        "many" if rest == "crates" => large::report_of_crates(alloc),
        "many" => large::listed(alloc, rest),
        "pairs" => in_words(alloc, large::pairs(alloc, rest)),
        "arguments" => programs::given(alloc, rest),
        "read" => programs::read(alloc, rest),
        "finish" => programs::finished(alloc, rest),
        "call" => calls::answer(alloc, rest),
        _ => answers_of_files(alloc, what, rest, words),
    }
}

fn answers_of_files(
    alloc: Global,
    what: &str,
    rest: &str,
    words: &str,
) -> Result<String, AllocError> {
    let mut text = String::new(alloc);
    let mut last = String::new(alloc);
    for (sample, file) in &files_of(alloc, words)? {
        let answer = match what {
            "fronts" => answers_of_fronts(alloc, rest, *sample, file)?,
            _ => answer(alloc, what, rest, *sample, file)?,
        };
        if answer.as_str() != last.as_str() {
            push_lines(&mut text, answer.as_str())?;
        }
        last = answer;
    }
    Ok(text)
}

// The files that words describe; none where a word isn't understood.
fn files_of(alloc: Global, words: &str) -> Result<Vec<(File, Vec<u8>)>, AllocError> {
    let mut files = Vec::new(alloc);
    let (name, changes) = words.split_once(' ').unwrap_or((words, ""));
    if let Some(names) = name.strip_prefix("elf(") {
        let sample = File::Elf(Layout::Elf64Little);
        let file = symbols::file_of_names(alloc, names)?;
        if let Some(file) = changed(alloc, sample, file, changes)? {
            files.push((sample, file))?;
        }
    }
    for sample in samples_of(name) {
        let file = Vec::from_slice(alloc, sample.bytes())?;
        if let Some(file) = changed(alloc, *sample, file, changes)? {
            files.push((*sample, file))?;
        }
    }
    Ok(files)
}

fn answers_of_fronts(
    alloc: Global,
    question: &str,
    sample: File,
    file: &[u8],
) -> Result<String, AllocError> {
    let (what, rest) = question.split_once(' ').unwrap_or((question, ""));
    let mut text = String::new(alloc);
    let mut last = String::new(alloc);
    for count in 0..file.len() + 1 {
        let answer = answer(alloc, what, rest, sample, first_bytes(file, count))?;
        if answer.as_str() != last.as_str() {
            write!(text, "{count}: ")?;
            push_lines(&mut text, answer.as_str())?;
        }
        last = answer;
    }
    Ok(text)
}

fn push_lines(text: &mut String, lines: &str) -> Result<(), AllocError> {
    text.push_str(lines)?;
    if !lines.ends_with('\n') {
        text.push('\n')?;
    }
    Ok(())
}

fn answer(
    alloc: Global,
    what: &str,
    rest: &str,
    sample: File,
    file: &[u8],
) -> Result<String, AllocError> {
    match what {
        "format" => String::formatted(alloc, format_args!("{:?}", detect_format(file))),
        "list" | "report" | "map" => texts::text_of_section(alloc, what, rest, file),
        "texts" => texts::all_texts(alloc, rest, file),
        "all" => texts::text_of_all(alloc, rest, file),
        "shares" => texts::shares_addresses(alloc, file),
        "versions" => texts::versions(alloc, file),
        "written" => writers::written(alloc, rest, file),
        "drawn-in-part" => writers::drawn_in_part(alloc, file),
        "parts" => calls::parts(alloc, file),
        "sums" => calls::sums(alloc, rest, file),
        _ => in_words(alloc, answer_of_reader(alloc, what, rest, sample, file)),
    }
}

fn in_words(alloc: Global, answer: Result<String, ParseError>) -> Result<String, AllocError> {
    match answer {
        Ok(text) => Ok(text),
        Err(error) => String::formatted(alloc, format_args!("{error}")),
    }
}

fn answer_of_reader(
    alloc: Global,
    what: &str,
    rest: &str,
    sample: File,
    file: &[u8],
) -> Result<String, ParseError> {
    match sample {
        File::Elf(layout) if what == "laid-out" => {
            Ok(images::laid_out(alloc, rest, layout, file)?)
        }
        File::Elf(layout) if layout.is_64() => elf::answer_64(alloc, layout, what, rest, file),
        File::Elf(layout) => elf::answer_32(alloc, layout, what, rest, file),
        File::Macho => macho::answer(alloc, what, rest, file),
        File::Pe => pe::answer(alloc, what, rest, file),
    }
}
