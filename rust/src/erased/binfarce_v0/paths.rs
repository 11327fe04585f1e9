// From crates/binfarce_v0/src/paths.rt, by tools/erase.

//! Printing a v0 name: what a position unfolds to is written as it is read, by the letter that a form begins with.

use crate::erased::binfarce_v0::identifiers::{print_crate_root, print_nested_name};
use crate::erased::binfarce_v0::lists::print_items;
use crate::erased::binfarce_v0::productions::{print, print_target};
use crate::erased::binfarce_v0::types::print_type;
use crate::erased::binfarce_v0_grammar::forms::Listed;
use crate::erased::binfarce_v0_grammar::numbers::{
    back_reference, byte_at, skip_optional_base_62_number,
};
use crate::erased::binfarce_v0_state::fragments::Production;
use crate::erased::binfarce_v0_state::nesting::Nesting;
use crate::erased::binfarce_v0_state::position::{
    Position, closing, is_open_trait, parent, value_mark,
};
use crate::erased::binfarce_v0_state::state::Printer;
use crate::shim::alloc::AllocError;

// A letter that may be a namespace.
#[cfg_attr(not(debug_assertions), inline(always))]
fn is_namespace(letter: u8) -> bool {
    letter.is_ascii_alphabetic()
}

/// `<path>`. Returns whether it was left open. It is kept where a back reference may name it.
pub fn print_path(
    printer: &mut Printer<'_>,
    here: Nesting,
    position: Position,
) -> Result<bool, AllocError> {
    print(printer, here, Production::Path(position))
}

// A path by the letter that it begins with.
#[cfg_attr(not(debug_assertions), inline(always))]
pub(crate) fn print_path_by_letter(
    printer: &mut Printer<'_>,
    here: Nesting,
    position: Position,
) -> Result<bool, AllocError> {
    let Some(at) = printer.at else {
        printer.invalid_syntax()?;
        return Ok(false);
    };
    let bytes = printer.part.as_bytes();
    match byte_at(bytes, at) {
        b'I' => {
            print_generic(printer, here, position, at + 1)?;
            Ok(is_open_trait(position))
        }
        b'B' => match back_reference(bytes, at) {
            Some((target, after)) => {
                let production = Production::Path(position);
                print_target(printer, here, production, target, after)
            }
            None => {
                printer.invalid_syntax()?;
                Ok(false)
            }
        },
        _ => {
            print_closed_path(printer, here, position, at)?;
            Ok(false)
        }
    }
}

// A path that is never left open: it has no arguments and isn't a back reference.
#[cfg_attr(not(debug_assertions), inline(always))]
fn print_closed_path(
    printer: &mut Printer<'_>,
    here: Nesting,
    position: Position,
    at: usize,
) -> Result<(), AllocError> {
    match byte_at(printer.part.as_bytes(), at) {
        b'C' => print_crate_root(printer, at + 1),
        b'N' => print_nested(printer, here, position, at),
        b'M' => print_inherent_impl(printer, here, position, at),
        b'X' => print_trait_impl(printer, here, position, at),
        b'Y' => {
            printer.seek(Some(at + 1));
            print_qualified(printer, here)
        }
        _ => printer.invalid_syntax(),
    }
}

// `"N" <namespace> <path> <identifier>`, with its `N` at `at`.
#[cfg_attr(not(debug_assertions), inline(always))]
fn print_nested(
    printer: &mut Printer<'_>,
    here: Nesting,
    position: Position,
    at: usize,
) -> Result<(), AllocError> {
    let namespace = byte_at(printer.part.as_bytes(), at + 1);
    if !is_namespace(namespace) {
        return printer.invalid_syntax();
    }
    printer.seek(Some(at + 2));
    print_path(printer, here, parent(position))?;
    print_nested_name(printer, namespace)
}

// `"M" <impl-path> <type>`, with its `M` at `at`.
fn print_inherent_impl(
    printer: &mut Printer<'_>,
    here: Nesting,
    position: Position,
    at: usize,
) -> Result<(), AllocError> {
    let bytes = printer.part.as_bytes();
    let Some(after) = skip_optional_base_62_number(bytes, b's', at + 1) else {
        return printer.invalid_syntax();
    };
    print_impl_path(printer, here, position, after)?;
    printer.write("<")?;
    print_type(printer, here)?;
    printer.write(">")
}

// `"X" <impl-path> <type> <path>`, with its `X` at `at`.
fn print_trait_impl(
    printer: &mut Printer<'_>,
    here: Nesting,
    position: Position,
    at: usize,
) -> Result<(), AllocError> {
    let bytes = printer.part.as_bytes();
    let Some(after) = skip_optional_base_62_number(bytes, b's', at + 1) else {
        return printer.invalid_syntax();
    };
    print_impl_path(printer, here, position, after)?;
    print_qualified(printer, here)
}

// The path of an impl, which is read and not written.
fn print_impl_path(
    printer: &mut Printer<'_>,
    here: Nesting,
    position: Position,
    after: usize,
) -> Result<(), AllocError> {
    let muted = printer.muted;
    printer.seek(Some(after));
    printer.set_muted(true);
    print_path(printer, here, parent(position))?;
    printer.set_muted(muted);
    Ok(())
}

// `<T as Trait>`
fn print_qualified(printer: &mut Printer<'_>, here: Nesting) -> Result<(), AllocError> {
    printer.write("<")?;
    print_type(printer, here)?;
    printer.write(" as ")?;
    print_path(printer, here, Position::InType)?;
    printer.write(">")
}

// A path with its arguments.
fn print_generic(
    printer: &mut Printer<'_>,
    here: Nesting,
    position: Position,
    after: usize,
) -> Result<(), AllocError> {
    printer.seek(Some(after));
    print_path(printer, here, parent(position))?;
    printer.write(value_mark(position))?;
    printer.write("<")?;
    print_items(printer, here, Listed::Arguments, ", ")?;
    printer.write(closing(position))
}
