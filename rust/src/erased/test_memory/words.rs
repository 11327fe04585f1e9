// From crates/test_memory/src/words.rt, by tools/erase.

//! Errors: their printed words, and the conversions to `ParseError`.

use crate::erased::test_memory::expected::is_printed;
use crate::erased::binfarce::{ParseError, UnexpectedEof};
use crate::erased::binfarce_image::image::ImageError;
use crate::erased::binfarce_tools::list::ListError;
use crate::erased::binfarce_tools::report::ReportError;
use crate::shim::alloc::AllocError;
use core::fmt;
use crate::erased::test_image_samples::tally::Tally;

const UNEXPECTED_TYPE: ParseError = ParseError::UnexpectedSectionType {
    expected: 3,
    actual: 1,
};

const PARSE: [(ParseError, &str); 6] = [
    (ParseError::SymbolsSectionIsMissing, "symbols section is missing"),
    (ParseError::SectionIsMissing(".symtab"), "section .symtab is missing"),
    (UNEXPECTED_TYPE, "expected section type 3 but found 1"),
    (ParseError::MalformedInput, "malformed input file"),
    (ParseError::UnexpectedEof, "unexpected end of file"),
    (ParseError::OutOfMemory, "out of memory"),
];

const LIST: [(ListError, &str); 4] = [
    (ListError::Unknown, "unknown file format"),
    (ListError::Parse(UNEXPECTED_TYPE), "expected section type 3 but found 1"),
    (ListError::OutOfMemory, "out of memory"),
    (ListError::Write, "write failed"),
];

const REPORT: [(ReportError, &str); 5] = [
    (ReportError::Unknown, "unknown file format"),
    (ReportError::Parse(UNEXPECTED_TYPE), "expected section type 3 but found 1"),
    (ReportError::OutOfMemory, "out of memory"),
    (ReportError::TooLarge, "sizes are too large"),
    (ReportError::Write, "write failed"),
];

const IMAGE: [(ImageError, &str); 5] = [
    (ImageError::TooManySections, "too many sections"),
    (ImageError::TableCount, "image needs exactly one symbol table"),
    (ImageError::NamesPlace, "section names are not in a byte section"),
    (ImageError::TooLarge, "image is too large"),
    (ImageError::OutOfMemory, "out of memory"),
];

fn add_words<T: fmt::Display>(tally: &mut Tally, errors: &[(T, &'static str)]) {
    for (error, words) in errors {
        tally.add(words, Ok(is_printed(error, words)));
    }
}

fn is_malformed() -> bool {
    match u8::try_from(256u32) {
        Ok(_) => false,
        Err(error) => ParseError::from(error) == ParseError::MalformedInput,
    }
}

pub(crate) fn add_errors(tally: &mut Tally) {
    add_words(tally, &PARSE);
    add_words(tally, &[(UnexpectedEof {}, "Unexpected end of file")]);
    add_words(tally, &LIST);
    add_words(tally, &REPORT);
    add_words(tally, &IMAGE);
    tally.add("a number that doesn't fit", Ok(is_malformed()));
    let error = ParseError::from(UnexpectedEof {});
    let is_truncated = error == ParseError::UnexpectedEof;
    tally.add("an unexpected end", Ok(is_truncated));
    let is_out_of_memory = ParseError::from(AllocError) == ParseError::OutOfMemory;
    tally.add("a failed allocation", Ok(is_out_of_memory));
}
