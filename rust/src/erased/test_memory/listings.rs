// From crates/test_memory/src/listings.rt, by tools/erase.

//! Listings, reports and pictures: the whole text, or `OutOfMemory` and nothing written.

use crate::erased::binfarce::ParseError;
use crate::erased::binfarce_image::image::ImageError;
use crate::erased::binfarce_tables::ReadError;
use crate::erased::binfarce_tools::SymbolTable;
use crate::erased::binfarce_tools::list::{ListError, Out, list, list_tables};
use crate::erased::binfarce_tools::report::{ReportError, report, report_tables};
use crate::erased::binfarce_tools::tables::{Selection, Tables, read};
use crate::shim::alloc::{AllocError, Global};
use crate::erased::test_image_samples::tally::{Row, Tally};
use crate::erased::test_image_samples::{FIRST_SIZE, draw, file_beside};
use crate::erased::test_samples::expected::Expected;
use crate::erased::test_samples::files::{FILES, File};
use crate::erased::test_samples::macho::{FOURTH, N_VALUE};
use crate::erased::test_samples::{Patch, elf, macho, patched, pe};

fn is_listed(alloc: Global, file: File, text: &str) -> Row {
    let bytes = file.whole(alloc)?;
    let mut out = Out::new(Expected::new(text.as_bytes()));
    let result = list(alloc, &bytes, ".text", &mut out);
    let written = out.into_inner();
    match result {
        Ok(()) => Ok(written.is_whole()),
        Err(ListError::OutOfMemory) if written.is_empty => Err(AllocError),
        Err(_) => Ok(false),
    }
}

// The listing of a sample, and its report.
fn texts_of(file: File) -> (&'static str, &'static str) {
    match file {
        File::Elf(_) => (elf::LISTING, "        16 foo\nsum 16\ntext 32\n"),
        File::Macho => (macho::LISTING, "       320 [unknown]\nsum 320\ntext 256\n"),
        File::Pe => (pe::LISTING, "       448 [unknown]\nsum 448\ntext 256\n"),
    }
}

// The one refusal in whose place `OutOfMemory` may come.
fn is_past_the_text(alloc: Global) -> Row {
    let past_the_text: Patch<'_> = (FOURTH + N_VALUE, &[0, 0x12]);
    let file = patched(alloc, &File::Macho.whole(alloc)?, &[past_the_text])?;
    let mut out = Out::new(Expected::new(b""));
    let result = list(alloc, &file, ".text", &mut out);
    let is_empty = out.into_inner().is_empty;
    match result {
        Err(ListError::OutOfMemory) if is_empty => Err(AllocError),
        other => Ok(other == Err(ListError::Parse(ParseError::MalformedInput)) && is_empty),
    }
}

pub(crate) fn add_listings(alloc: Global, tally: &mut Tally) {
    for file in FILES {
        let (listing, _) = texts_of(file);
        tally.add(file.name(), is_listed(alloc, file, listing));
    }
    tally.add("a symbol past the text", is_past_the_text(alloc));
    for (name, call, text) in &ALL {
        tally.add(name, is_written(alloc, *call, text));
    }
}

// The text of a report or of its picture, or the refusal of both.
#[derive(Clone, Copy)]
enum Reported {
    Text(&'static str),
    Picture(&'static str),
    TooLarge,
}

fn is_reported(alloc: Global, file: &[u8], expected: Reported) -> Row {
    let text = match expected {
        Reported::Text(text) => text,
        Reported::Picture(text) => text,
        Reported::TooLarge => "",
    };
    let mut out = Out::new(Expected::new(text.as_bytes()));
    let result = match expected {
        Reported::Picture(_) => draw(alloc, "file", &Tables::whole(file, ".text"), &mut out),
        _ => report(alloc, file, ".text", &mut out),
    };
    let written = out.into_inner();
    match (result, expected) {
        (Ok(()), Reported::Text(_)) => Ok(written.is_whole()),
        (Ok(()), Reported::Picture(_)) => Ok(written.is_whole()),
        (Err(ReportError::TooLarge), Reported::TooLarge) => Ok(written.is_empty),
        (Err(ReportError::OutOfMemory), _) if written.is_empty => Err(AllocError),
        _ => Ok(false),
    }
}

fn is_reported_of(alloc: Global, file: File) -> Row {
    let bytes = file.whole(alloc)?;
    let (_, text) = texts_of(file);
    is_reported(alloc, &bytes, Reported::Text(text))
}

// The picture of two crates.
const PICTURE: &str =
    "<svg xmlns=\"http://www.w3.org/2000/svg\" width=\"800\" height=\"120\" viewBox=\"0 0 800 120\" font-family=\"sans-serif\" font-size=\"16\">\n<title>Size by crate: file</title>\n<rect width=\"800\" height=\"100%\" fill=\"#fff\"/>\n<text x=\"8\" y=\"25\" font-weight=\"bold\">file</text>\n<text x=\"8\" y=\"49\">sum 0.0 KiB, text 0.0 KiB: share of the sum and size by crate</text>\n<svg y=\"64\" height=\"24\"><svg width=\"248\"><text x=\"8\" y=\"18\">123foo</text></svg><svg x=\"252\" width=\"324\"><rect y=\"3\" width=\"100%\" height=\"18\" fill=\"#e6e6e6\"/><rect y=\"3\" width=\"100.00%\" height=\"18\" fill=\"#245\"/></svg><text x=\"664\" y=\"18\" text-anchor=\"end\">50.00%</text><text x=\"792\" y=\"18\" text-anchor=\"end\">0.0 KiB</text></svg>\n<svg y=\"88\" height=\"24\"><svg width=\"248\"><text x=\"8\" y=\"18\">foo</text></svg><svg x=\"252\" width=\"324\"><rect y=\"3\" width=\"100%\" height=\"18\" fill=\"#e6e6e6\"/><rect y=\"3\" width=\"100.00%\" height=\"18\" fill=\"#245\"/></svg><text x=\"664\" y=\"18\" text-anchor=\"end\">50.00%</text><text x=\"792\" y=\"18\" text-anchor=\"end\">0.0 KiB</text></svg>\n</svg>\n";

// The name of a function before `foo::bar`, and the report of both or its picture; `TooLarge` if the first
// function's size is 2^64 - 1.
const REPORTS: [(&str, Reported); 4] = [
    ("_RNvC6_123foo3bar", Reported::Picture(PICTURE)),
    ("_RNvC6_123foo3bar", Reported::Text("        16 123foo\n        16 foo\nsum 32\ntext 32\n")),
    ("_ZN11_$LT$a$GT$bE", Reported::Text("        16 [unknown]\n        16 foo\nsum 32\ntext 32\n")),
    ("a", Reported::TooLarge),
];

fn is_reported_beside(alloc: Global, name: &str, expected: Reported) -> Row {
    let file = match file_beside(alloc, name) {
        Ok(file) => file,
        Err(ImageError::OutOfMemory) => return Err(AllocError),
        Err(_) => return Ok(false),
    };
    match expected {
        Reported::TooLarge => {
            let file = patched(alloc, &file, &[(FIRST_SIZE, &[0xFF; 8])])?;
            is_reported(alloc, &file, expected)
        }
        _ => is_reported(alloc, &file, expected),
    }
}

pub(crate) fn add_reports(alloc: Global, tally: &mut Tally) {
    for file in FILES {
        tally.add(file.name(), is_reported_of(alloc, file));
    }
    for (name, expected) in &REPORTS {
        tally.add(name, is_reported_beside(alloc, name, *expected));
    }
}

// What is written of all sections.
#[derive(Clone, Copy)]
enum All {
    List,
    Report,
    Map,
}

const ALL: [(&str, All, &str); 3] = [
    (
        "a listing of all sections",
        All::List,
        "0000000000001000         16 .text foo\n0000000000001010         16 .symtab bad\n0000000000001010          0 .text bad\n",
    ),
    (
        "a report of all sections",
        All::Report,
        "        16 [unknown]\n        16 foo\nsum 32\n",
    ),
    ("a picture of all sections", All::Map, ALL_PICTURE),
];

const ALL_PICTURE: &str =
    "<svg xmlns=\"http://www.w3.org/2000/svg\" width=\"800\" height=\"144\" viewBox=\"0 0 800 144\" font-family=\"sans-serif\" font-size=\"16\">\n<title>Size by crate: file</title>\n<rect width=\"800\" height=\"100%\" fill=\"#fff\"/>\n<text x=\"8\" y=\"25\" font-weight=\"bold\">file</text>\n<text x=\"8\" y=\"49\">sum 0.0 KiB: share of the sum and size by crate</text>\n<svg y=\"64\" height=\"24\"><svg width=\"248\"><text x=\"8\" y=\"18\">[unknown]</text></svg><svg x=\"252\" width=\"324\"><rect y=\"3\" width=\"100%\" height=\"18\" fill=\"#e6e6e6\"/><rect y=\"3\" width=\"100.00%\" height=\"18\" fill=\"#245\"/></svg><text x=\"664\" y=\"18\" text-anchor=\"end\">50.00%</text><text x=\"792\" y=\"18\" text-anchor=\"end\">0.0 KiB</text></svg>\n<svg y=\"88\" height=\"24\"><svg width=\"248\"><text x=\"8\" y=\"18\">foo</text></svg><svg x=\"252\" width=\"324\"><rect y=\"3\" width=\"100%\" height=\"18\" fill=\"#e6e6e6\"/><rect y=\"3\" width=\"100.00%\" height=\"18\" fill=\"#245\"/></svg><text x=\"664\" y=\"18\" text-anchor=\"end\">50.00%</text><text x=\"792\" y=\"18\" text-anchor=\"end\">0.0 KiB</text></svg>\n<text x=\"8\" y=\"130\" fill=\"#444\">[unknown]: names in which no crate is named, such as those of C, C++ and assembly</text>\n</svg>\n";

fn is_written(alloc: Global, call: All, text: &str) -> Row {
    let file = elf::ELF64_LITTLE.as_slice();
    let tables = match read(alloc, &file, &mut (), SymbolTable::Symtab, Selection::All) {
        Ok(tables) => tables,
        Err(ReadError::OutOfMemory) => return Err(AllocError),
        Err(_) => return Ok(false),
    };
    let mut out = Out::new(Expected::new(text.as_bytes()));
    let result = match call {
        All::List => list_tables(alloc, &tables, &mut out).map_err(ReportError::from),
        All::Report => report_tables(alloc, &tables, &mut out),
        All::Map => draw(alloc, "file", &tables, &mut out),
    };
    let written = out.into_inner();
    match result {
        Ok(()) => Ok(written.is_whole()),
        Err(ReportError::OutOfMemory) if written.is_empty => Err(AllocError),
        Err(_) => Ok(false),
    }
}
