// From crates/binfarce_v0/src/identifiers.rt, by tools/erase.

//! Printing the name of a nested path and a crate root.

use crate::erased::binfarce_v0_grammar::identifiers::{identifier_at, identifier_name_at};
use crate::erased::binfarce_v0_state::state::Printer;
use crate::erased::binfarce_v0_state::text::{AfterMark, Nested};
use crate::shim::alloc::AllocError;

// The name of a nested path after its parent.
pub fn print_nested_name(printer: &mut Printer<'_>, namespace: u8) -> Result<(), AllocError> {
    let Some(at) = printer.at else {
        return printer.invalid_syntax();
    };
    if namespace.is_ascii_uppercase() {
        print_special_name(printer, namespace, at)
    } else {
        print_plain_name(printer, namespace, at)
    }
}

// The name of a closure, or of an item in another special namespace, with its disambiguator.
fn print_special_name(printer: &mut Printer<'_>, namespace: u8, at: usize) -> Result<(), AllocError> {
    match identifier_at(printer.part, at) {
        Some((identifier, after)) => {
            printer.seek(Some(after));
            printer.put(Nested(namespace, identifier))
        }
        None => printer.invalid_syntax(),
    }
}

// The name of any other nested path, whose disambiguator isn't shown.
fn print_plain_name(printer: &mut Printer<'_>, namespace: u8, at: usize) -> Result<(), AllocError> {
    match identifier_name_at(printer.part, at) {
        Some((name, after)) => {
            printer.seek(Some(after));
            printer.put(AfterMark("::", name))
        }
        None => printer.invalid_syntax(),
    }
}

// `"C" <identifier>`, by the position of the identifier.
pub fn print_crate_root(printer: &mut Printer<'_>, at: usize) -> Result<(), AllocError> {
    if printer.full {
        print_full_root(printer, at)
    } else {
        print_trimmed_root(printer, at)
    }
}

// A crate's name with its disambiguator.
fn print_full_root(printer: &mut Printer<'_>, at: usize) -> Result<(), AllocError> {
    match identifier_at(printer.part, at) {
        Some((root, after)) => {
            printer.seek(Some(after));
            printer.keep_root(root.name);
            printer.put(root.name)?;
            printer.disambiguate(root.disambiguator)
        }
        None => printer.invalid_syntax(),
    }
}

// A crate's name without its disambiguator.
fn print_trimmed_root(printer: &mut Printer<'_>, at: usize) -> Result<(), AllocError> {
    match identifier_name_at(printer.part, at) {
        Some((name, after)) => {
            printer.seek(Some(after));
            printer.keep_root(name);
            printer.put(name)
        }
        None => printer.invalid_syntax(),
    }
}
