// From crates/binfarce_rows/src/json.rt, by tools/erase.

//! Rows as JSON objects (RFC 8259).

use crate::shim::String;
use crate::erased::binfarce_text::digits::hex_digit;
use crate::shim::alloc::AllocError;

/// How rows are written.
#[derive(Debug, Clone, Copy, PartialEq)]
pub enum Form<'a> {
    /// As lines.
    Lines,
    /// As JSON objects, a line each, with these names of the file, and of the section where one is selected.
    Objects(&'a str, &'a str),
}

/// Appends the beginning of an object: its brace, and the member `file`.
pub fn push_start(text: &mut String, file: &str) -> Result<(), AllocError> {
    text.push_str("{\"file\":")?;
    push_text(text, file)
}

/// Appends a member whose value is a text, or `null`, after a comma. The member's name is written as it is.
pub fn push_text_member(
    text: &mut String,
    name: &str,
    value: Option<&str>,
) -> Result<(), AllocError> {
    write!(text, ",\"{name}\":")?;
    match value {
        Some(value) => push_text(text, value),
        None => text.push_str("null"),
    }
}

/// Appends a member whose value is a number, after a comma. The member's name is written as it is.
pub fn push_number_member(text: &mut String, name: &str, value: u64) -> Result<(), AllocError> {
    write!(text, ",\"{name}\":{value}")
}

/// Appends the member `address`, a text of `0x` and 16 hexadecimal digits, after a comma.
pub fn push_address_member(text: &mut String, address: u64) -> Result<(), AllocError> {
    text.push_str(",\"address\":\"0x")?;
    push_address(text, address)?;
    text.push_str("\"")?;
    Ok(())
}

fn push_address(text: &mut String, address: u64) -> Result<(), AllocError> {
    write!(text, "{address:016x}")
}

// Appends a text in quotation marks. Within, quotation marks, reverse solidi and control characters are escaped.
fn push_text(text: &mut String, value: &str) -> Result<(), AllocError> {
    text.push_str("\"")?;
    push_chars(text, value)?;
    text.push_str("\"")
}

fn push_chars(text: &mut String, value: &str) -> Result<(), AllocError> {
    for c in value.chars() {
        push_char(text, c)?;
    }
    Ok(())
}

fn push_char(text: &mut String, c: char) -> Result<(), AllocError> {
    match c {
        '"' => text.push_str("\\\""),
        '\\' => text.push_str("\\\\"),
        '\0'..='\x1f' => {
            text.push_str("\\u00")?;
            text.push(hex_digit(u64::from(c) / 16) as char)?;
            text.push(hex_digit(u64::from(c) % 16) as char)
        }
        _ => text.push(c),
    }
}
