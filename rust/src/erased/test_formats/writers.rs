// From crates/test_formats/src/writers.rt, by tools/erase.

//! Writers that fail: what they took is a beginning of the text, and the call reports it.

use crate::shim::{String, Vec};
use crate::erased::test_formats::texts::text_of_section;
use crate::erased::binfarce_tools::list::{ListError, Out, Sink, list};
use crate::erased::binfarce_tools::report::{ReportError, report};
use crate::erased::binfarce_tools::tables::Tables;
use crate::shim::alloc::{AllocError, Global};
use crate::shim::io::ErrorKind;
use crate::erased::test_image_samples::draw;
use crate::erased::test_samples::streams::Target;
use crate::erased::test_samples::{first_bytes, patched};

// How many bytes a writer takes in a call, and how a call ends that takes none.
type Limits = (usize, Option<ErrorKind>);

const LIMITS: [Limits; 5] = [
    (1, None),
    (7, Some(ErrorKind::Interrupted)),
    (100, Some(ErrorKind::Other)),
    (100, None),
    (usize::MAX, None),
];

// Whether the call reports that all was written, or that a write failed; `None` if it refuses otherwise.
fn all_written(alloc: Global, what: &str, file: &[u8], out: &mut Out<Target>) -> Option<bool> {
    match what {
        "list" => match list(alloc, file, ".text", out) {
            Ok(()) => Some(true),
            Err(error) => (error == ListError::Write).then_some(false),
        },
        "report" => match report(alloc, file, ".text", out) {
            Ok(()) => Some(true),
            Err(error) => (error == ReportError::Write).then_some(false),
        },
        _ => match draw(alloc, "{path}", &Tables::whole(file, ".text"), out) {
            Ok(()) => Some(true),
            Err(error) => (error == ReportError::Write).then_some(false),
        },
    }
}

// Whether a writer that takes so many bytes gets the first ones of the text, and the call reports whether these are
// all.
fn takes_a_beginning(
    alloc: Global,
    what: &str,
    file: &[u8],
    text: &str,
    left: usize,
    limits: Limits,
) -> bool {
    let (most, end) = limits;
    let mut out = Out::new(Target {
        taken: Vec::new(alloc),
        left,
        most,
        end,
    });
    let is_whole = left == text.len();
    let is_reported = all_written(alloc, what, file, &mut out) == Some(is_whole);
    let has_failed = out.failed();
    let taken = out.into_inner().taken;
    is_reported && has_failed != is_whole && taken.as_slice() == first_bytes(text.as_bytes(), left)
}

// The first number of bytes, up to the whole text, of which that isn't so, and the writer's limits.
fn other_writer(alloc: Global, what: &str, file: &[u8], text: &str) -> Option<(usize, Limits)> {
    for limits in LIMITS {
        for left in 0..text.len() + 1 {
            if !takes_a_beginning(alloc, what, file, text, left, limits) {
                return Some((left, limits));
            }
        }
    }
    None
}

/// How many bytes the text has, and the first writer that it isn't so of.
pub fn written(alloc: Global, what: &str, file: &[u8]) -> Result<String, AllocError> {
    let text = text_of_section(alloc, what, ".text", file)?;
    let (length, other) = (text.len(), other_writer(alloc, what, file, text.as_str()));
    String::formatted(alloc, format_args!("{length} bytes, {other:?}"))
}

/// The first offset at which the greatest number makes a file that is drawn in part: it has to be drawn whole, or
/// refused and nothing drawn.
pub fn drawn_in_part(alloc: Global, file: &[u8]) -> Result<String, AllocError> {
    for at in 8..file.len().saturating_sub(7) {
        let changed = patched(alloc, file, &[(at, &[0xFF; 8])])?;
        let text = text_of_section(alloc, "map", ".text", &changed)?;
        let is_drawn = text.as_str().starts_with("<svg ") && text.as_str().ends_with("</svg>\n");
        if !is_drawn && text.as_str().contains("<") {
            return String::formatted(alloc, format_args!("{at}"));
        }
    }
    String::from_str(alloc, "none")
}
