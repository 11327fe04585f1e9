// From crates/binfarce_chart/src/svg.rt, by tools/erase.

//! The text of a picture.

use crate::shim::String;
use crate::erased::binfarce_chart::bars::{
    Bar, count_of, falling, largest_of, length_of, others, shown_of, size_of_all, width_of,
};
use crate::erased::binfarce_text::digits::hex_digit;
use crate::shim::alloc::{AllocError, Global};

// The bytes of a MiB.
const MIB: u64 = 1 << 20;

// The name of the bar of names without a crate.
const UNKNOWN: &str = "[unknown]";

/// The picture of these sizes, as a whole SVG document: a bar for each, the greatest first.
///
/// The sum of the sizes has to be below 2^64. `Some(n)` shows the first n bars, and `None` the first 39 if there
/// are more than 40; if some are left, one more bar sums up all of them. The largest bar has the whole width, and each
/// other its part of that, but a bar of a size above 0 has at least 0.30 per cent. Beside it is its share of the sum, in
/// hundredths of a per cent, which adds up to 100.00 with the others, and its size in KiB, or from 1 MiB on in MiB. The
/// title is above the bars, with the sum and, if it is given, `section_size`. Below them a line says what `[unknown]` is,
/// if a bar that is shown has that name. Without bars the picture says `no function symbols`. Names and the title are
/// escaped; the end of a long one is cut. The only error is a failed allocation.
pub fn chart(
    alloc: Global,
    title: &str,
    bars: &[Bar<'_>],
    section_size: Option<u64>,
    first: Option<usize>,
) -> Result<String, AllocError> {
    let sorted = falling(alloc, bars)?;
    let bars = sorted.as_slice();
    let count = count_of(first, bars.len());
    let label = others(alloc, bars.len().saturating_sub(count))?;
    let shown = shown_of(alloc, bars, count, label.as_str())?;
    picture_of(alloc, title, shown.as_slice(), section_size)
}

// The picture of the bars that are shown.
fn picture_of(
    alloc: Global,
    title: &str,
    bars: &[Bar<'_>],
    section_size: Option<u64>,
) -> Result<String, AllocError> {
    let sum = size_of_all(bars);
    let note = note_of(bars);
    let height = height_of(bars.len(), note);
    let mut text = String::new(alloc);
    push_head(&mut text, title, height, sum, section_size)?;
    push_rows(&mut text, bars, sum, largest_of(bars))?;
    push_foot(&mut text, 24 * bars.len() as u128 + 82, note)?;
    Ok(text)
}

// The line below the bars, if any.
fn note_of(bars: &[Bar<'_>]) -> Option<&'static str> {
    if bars.is_empty() {
        Some("no function symbols")
    } else if has_unknown(bars) {
        Some("[unknown]: names in which no crate is named, such as those of C, C++ and assembly")
    } else {
        None
    }
}

// The height of the picture of so many bars, with this note.
fn height_of(count: usize, note: Option<&str>) -> u128 {
    let rows = 24 * count as u128;
    if note.is_some() { rows + 96 } else { rows + 72 }
}

// Whether a bar is that of names without a crate.
fn has_unknown(bars: &[Bar<'_>]) -> bool {
    bars.iter().any(|bar| is_unknown(bar))
}

fn is_unknown(bar: &Bar<'_>) -> bool {
    bar.name == UNKNOWN
}

// The text before the rows of a document of this height.
fn push_head(
    text: &mut String,
    title: &str,
    height: u128,
    sum: u64,
    section_size: Option<u64>,
) -> Result<(), AllocError> {
    push_opening(text, height)?;
    push_document_title(text, title)?;
    push_heading(text, title)?;
    push_caption(text, sum, section_size)
}

fn push_opening(text: &mut String, height: u128) -> Result<(), AllocError> {
    writeln!(
        text,
        "<svg xmlns=\"http://www.w3.org/2000/svg\" width=\"800\" height=\"{height}\" viewBox=\"0 0 800 {height}\" font-family=\"sans-serif\" font-size=\"16\">"
    )
}

fn push_document_title(text: &mut String, title: &str) -> Result<(), AllocError> {
    text.push_str("<title>Size by crate: ")?;
    push_escaped(text, title.as_bytes())?;
    writeln!(
        text,
        "</title>\n<rect width=\"800\" height=\"100%\" fill=\"#fff\"/>"
    )
}

fn push_heading(text: &mut String, title: &str) -> Result<(), AllocError> {
    text.push_str("<text x=\"8\" y=\"25\" font-weight=\"bold\">")?;
    push_label(text, 80, title)?;
    writeln!(text, "</text>")
}

fn push_caption(text: &mut String, sum: u64, section_size: Option<u64>) -> Result<(), AllocError> {
    text.push_str("<text x=\"8\" y=\"49\">sum ")?;
    push_amount(text, sum)?;
    push_section_part(text, section_size)?;
    text.push_str(": share of the sum and size by crate</text>\n")
}

// The section's size, if there is one.
fn push_section_part(text: &mut String, size: Option<u64>) -> Result<(), AllocError> {
    match size {
        None => Ok(()),
        Some(size) => {
            text.push_str(", text ")?;
            push_amount(text, size)
        }
    }
}

fn push_foot(text: &mut String, y: u128, note: Option<&str>) -> Result<(), AllocError> {
    match note {
        None => text.push_str("</svg>\n"),
        Some(line) => write!(
            text,
            "<text x=\"8\" y=\"{y}\" fill=\"#444\">{line}</text>\n</svg>\n"
        ),
    }
}

// The rows of these bars.
fn push_rows(text: &mut String, bars: &[Bar<'_>], sum: u64, most: u64) -> Result<(), AllocError> {
    let mut before = 0;
    let mut top = 64u128;
    for bar in bars {
        let share = length_of(sum, before, bar.size);
        push_row(text, top, *bar, share, width_of(most, bar.size))?;
        before += bar.size;
        top += 24;
    }
    Ok(())
}

// The row of a bar, so far from the top.
fn push_row(
    text: &mut String,
    top: u128,
    bar: Bar<'_>,
    share: u64,
    width: u64,
) -> Result<(), AllocError> {
    push_row_start(text, top)?;
    push_label(text, 26, bar.name)?;
    push_bar(text, width)?;
    push_share(text, share)?;
    push_size(text, bar.size)
}

fn push_row_start(text: &mut String, top: u128) -> Result<(), AllocError> {
    write!(
        text,
        "<svg y=\"{top}\" height=\"24\"><svg width=\"248\"><text x=\"8\" y=\"18\">"
    )
}

fn push_bar(text: &mut String, width: u64) -> Result<(), AllocError> {
    text.push_str(
        "</text></svg><svg x=\"252\" width=\"324\"><rect y=\"3\" width=\"100%\" height=\"18\" fill=\"#e6e6e6\"/><rect y=\"3\" width=\"",
    )?;
    push_percents(text, width)?;
    write!(text, "%\" height=\"18\" fill=\"#245\"/></svg>")
}

fn push_share(text: &mut String, share: u64) -> Result<(), AllocError> {
    text.push_str("<text x=\"664\" y=\"18\" text-anchor=\"end\">")?;
    push_percents(text, share)?;
    write!(text, "%</text>")
}

fn push_size(text: &mut String, size: u64) -> Result<(), AllocError> {
    text.push_str("<text x=\"792\" y=\"18\" text-anchor=\"end\">")?;
    push_amount(text, size)?;
    writeln!(text, "</text></svg>")
}

// Hundredths of a per cent, as per cents with two decimals.
fn push_percents(text: &mut String, n: u64) -> Result<(), AllocError> {
    write!(text, "{}.{}{}", n / 100, n / 10 % 10, n % 10)
}

// A size in KiB, or from 1 MiB on in MiB.
fn push_amount(text: &mut String, size: u64) -> Result<(), AllocError> {
    if size < MIB {
        push_in_unit(text, 1024, "KiB", size)
    } else {
        push_in_unit(text, MIB, "MiB", size)
    }
}

// A size in this unit with one decimal, rounded to the nearest, and the unit's name.
fn push_in_unit(text: &mut String, unit: u64, name: &str, size: u64) -> Result<(), AllocError> {
    let unit = u128::from(unit);
    let tenths = (u128::from(size) * 10 + unit / 2) / unit;
    push_groups(text, 6, tenths / 10)?;
    write!(text, ".{} {name}", tenths % 10)
}

// A number with a comma before each of the last groups of three digits, at most so many.
fn push_groups(text: &mut String, most: usize, n: u128) -> Result<(), AllocError> {
    if most == 0 || n < 1000 {
        return write!(text, "{n}");
    }
    push_groups(text, most - 1, n / 1000)?;
    write!(text, ",{}{}{}", n / 100 % 10, n / 10 % 10, n % 10)
}

// A name of at most so many bytes; of a longer one the beginning, an ellipsis, and the whole name as a title.
fn push_label(text: &mut String, most: usize, name: &str) -> Result<(), AllocError> {
    let bytes = name.as_bytes();
    if bytes.len() <= most {
        return push_escaped(text, bytes);
    }
    text.push_str("<title>")?;
    push_escaped(text, bytes)?;
    text.push_str("</title>")?;
    push_escaped(text, &bytes[..most])?;
    text.push_str("&#8230;")
}

// A name, escaped so that XML takes every character literally.
fn push_escaped(text: &mut String, name: &[u8]) -> Result<(), AllocError> {
    for byte in name {
        push_escaped_byte(text, *byte)?;
    }
    Ok(())
}

fn push_escaped_byte(text: &mut String, byte: u8) -> Result<(), AllocError> {
    match byte {
        b'<' => text.push_str("&lt;"),
        b'>' => text.push_str("&gt;"),
        b'&' => text.push_str("&amp;"),
        b'"' => text.push_str("&quot;"),
        32..=126 => text.push(byte as char),
        _ => {
            text.push_str("\\x")?;
            text.push(hex_digit(u64::from(byte / 16 % 16)) as char)?;
            text.push(hex_digit(u64::from(byte % 16)) as char)
        }
    }
}
