// From crates/binfarce_c/src/texts.rt, by tools/erase.

//! Listings and reports of files.

use crate::shim::Vec;
use crate::erased::binfarce_c::buffer::{Text, give};
use crate::erased::binfarce_c::names::none;
use crate::erased::binfarce_c::status::{
    NOT_UTF8, OUT_OF_MEMORY, TOO_LARGE, UNKNOWN_FORMAT, detail_of, status_of,
};
use crate::erased::binfarce_tools::list::{Out, list};
use crate::erased::binfarce_tools::report::{ReportError, report};
use crate::shim::alloc::Global;
use core::str;

/// The listing of a file's function symbols, in a buffer. See `binfarce.h`.
pub fn binfarce_list(alloc: Global, file: &[u8], section: &[u8], out: &mut [u8]) -> Text {
    let Ok(section) = str::from_utf8(section) else {
        return none(NOT_UTF8);
    };
    let mut sink = Out::new(Vec::new(alloc));
    match list(alloc, file, section, &mut sink) {
        Ok(()) => give(sink.into_inner().as_slice(), out),
        Err(e) => no_report(ReportError::from(e)),
    }
}

/// The report of how much of a file each crate takes, in a buffer. See `binfarce.h`.
pub fn binfarce_report(
    alloc: Global,
    file: &[u8],
    section: &[u8],
    out: &mut [u8],
) -> Text {
    let Ok(section) = str::from_utf8(section) else {
        return none(NOT_UTF8);
    };
    let mut sink = Out::new(Vec::new(alloc));
    match report(alloc, file, section, &mut sink) {
        Ok(()) => give(sink.into_inner().as_slice(), out),
        Err(e) => no_report(e),
    }
}

fn no_report(error: ReportError) -> Text {
    match error {
        ReportError::Unknown => none(UNKNOWN_FORMAT),
        ReportError::Parse(e) => Text {
            detail: detail_of(e),
            ..none(status_of(e))
        },
        ReportError::OutOfMemory | ReportError::Write => none(OUT_OF_MEMORY),
        ReportError::TooLarge => none(TOO_LARGE),
    }
}
