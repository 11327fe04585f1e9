// From crates/binfarce_v0/src/types.rt, by tools/erase.

//! Printing a type, by the letter that its form begins with.

use crate::erased::binfarce_v0::consts::print_const;
use crate::erased::binfarce_v0::lists::print_items;
use crate::erased::binfarce_v0::paths::print_path;
use crate::erased::binfarce_v0::productions::{print, print_target};
use crate::erased::binfarce_v0_grammar::forms::{
    FunctionForm, Listed, Signature, basic_type, function_form, lifetime_form,
};
use crate::erased::binfarce_v0_grammar::numbers::{back_reference, byte_at, optional_base_62_number};
use crate::erased::binfarce_v0_grammar::positions::{bound_end, eat, required_end};
use crate::erased::binfarce_v0_state::fragments::Production;
use crate::erased::binfarce_v0_state::nesting::Nesting;
use crate::erased::binfarce_v0_state::position::Position;
use crate::erased::binfarce_v0_state::state::Printer;
use crate::erased::binfarce_v0_state::text::{Binder, DynLifetime, ReferenceLifetime};
use crate::shim::alloc::AllocError;

/// `<type>`. It is kept where a back reference may name it.
pub fn print_type(printer: &mut Printer<'_>, here: Nesting) -> Result<(), AllocError> {
    print(printer, here, Production::Type)?;
    Ok(())
}

// A type by the letter that it begins with.
#[cfg_attr(not(debug_assertions), inline(always))]
pub(crate) fn print_type_by_letter(
    printer: &mut Printer<'_>,
    here: Nesting,
) -> Result<(), AllocError> {
    let Some(at) = printer.at else {
        return printer.invalid_syntax();
    };
    if at >= printer.part.len() {
        return printer.invalid_syntax();
    }
    match basic_type(byte_at(printer.part.as_bytes(), at)) {
        Some(text) => {
            printer.seek(Some(at + 1));
            printer.write(text)
        }
        None => print_other_type(printer, here, at),
    }
}

// A type that isn't a basic type.
#[cfg_attr(not(debug_assertions), inline(always))]
fn print_other_type(printer: &mut Printer<'_>, here: Nesting, at: usize) -> Result<(), AllocError> {
    let bytes = printer.part.as_bytes();
    let after = at + 1;
    match byte_at(bytes, at) {
        b'R' => print_reference(printer, here, false, after),
        b'Q' => print_reference(printer, here, true, after),
        b'P' => print_pointer(printer, here, "*const ", after),
        b'O' => print_pointer(printer, here, "*mut ", after),
        b'S' => print_slice(printer, here, after),
        b'A' => print_array(printer, here, after),
        b'T' => print_tuple(printer, here, after),
        b'F' => print_function_form(printer, here, after),
        b'D' => print_dyn_form(printer, here, after),
        b'B' => match back_reference(bytes, at) {
            Some((target, end)) => {
                let production = Production::Type;
                print_target(printer, here, production, target, end)?;
                Ok(())
            }
            None => printer.invalid_syntax(),
        },
        _ => {
            print_path(printer, here, Position::InType)?;
            Ok(())
        }
    }
}

// `"S" <type>`, after the letter.
fn print_slice(printer: &mut Printer<'_>, here: Nesting, after: usize) -> Result<(), AllocError> {
    printer.seek(Some(after));
    printer.write("[")?;
    print_type(printer, here)?;
    printer.write("]")
}

// `"D" ..`, after the letter.
fn print_dyn_form(printer: &mut Printer<'_>, here: Nesting, at: usize) -> Result<(), AllocError> {
    match optional_base_62_number(printer.part.as_bytes(), b'G', at) {
        Some((binder, after)) => print_dyn(printer, here, binder, after),
        None => {
            printer.seek(None);
            printer.write("dyn ??")
        }
    }
}

// `"P" ..` and `"O" ..`, after the letter.
fn print_pointer(
    printer: &mut Printer<'_>,
    here: Nesting,
    mark: &'static str,
    after: usize,
) -> Result<(), AllocError> {
    printer.seek(Some(after));
    printer.write(mark)?;
    print_type(printer, here)
}

// `"F" ..`, after the letter.
fn print_function_form(
    printer: &mut Printer<'_>,
    here: Nesting,
    at: usize,
) -> Result<(), AllocError> {
    match function_form(
        printer.part,
        optional_base_62_number(printer.part.as_bytes(), b'G', at),
    ) {
        FunctionForm::FunctionOf(signature, after) => {
            print_function(printer, here, signature, after)
        }
        FunctionForm::InvalidAbi(binder) => print_invalid_function(
            printer,
            here.binder_depth,
            binder,
        ),
        _ => printer.invalid_syntax(),
    }
}

// `"A" <type> <const>`
fn print_array(printer: &mut Printer<'_>, here: Nesting, after: usize) -> Result<(), AllocError> {
    printer.seek(Some(after));
    printer.write("[")?;
    print_type(printer, here)?;
    printer.write("; ")?;
    print_const(printer, here)?;
    printer.write("]")
}

// `"T" {<type>} "E"`
fn print_tuple(printer: &mut Printer<'_>, here: Nesting, after: usize) -> Result<(), AllocError> {
    printer.seek(Some(after));
    printer.write("(")?;
    let count = print_items(printer, here, Listed::Types, ", ")?;
    printer.write(if count == 1 { "," } else { "" })?;
    printer.write(")")
}

// `"R" ..` and `"Q" ..`, after the letter.
fn print_reference(
    printer: &mut Printer<'_>,
    here: Nesting,
    mutable: bool,
    at: usize,
) -> Result<(), AllocError> {
    let (life, end) = lifetime_form(printer.part.as_bytes(), Some(at));
    let Some(after) = end else {
        if printer.take(1) {
            printer.seek(None);
            printer.write("&?")?;
        }
        return Ok(());
    };
    if !printer.take_lifetime(life) {
        return Ok(());
    }
    printer.seek(bound_end(here.binder_depth, life, Some(after)));
    printer.write("&")?;
    printer.put(ReferenceLifetime(here.binder_depth, life))?;
    printer.write(if mutable { "mut " } else { "" })?;
    print_type(printer, here)
}

// A function type.
fn print_function<'a>(
    printer: &mut Printer<'a>,
    here: Nesting,
    signature: Signature<'a>,
    after: usize,
) -> Result<(), AllocError> {
    if !printer.take(signature.binder) {
        return Ok(());
    }
    printer.seek(Some(after));
    printer.put(Binder {
        binder_depth: here.binder_depth,
        count: signature.binder as usize,
    })?;
    printer.put(signature)?;
    let inner = here.under(signature.binder as usize);
    print_items(printer, inner, Listed::Types, ", ")?;
    printer.write(")")?;
    match eat(printer.part.as_bytes(), b'u', printer.at) {
        Some(after) => {
            printer.seek(Some(after));
            Ok(())
        }
        None => {
            printer.write(" -> ")?;
            print_type(printer, inner)
        }
    }
}

// A dyn type.
fn print_dyn(
    printer: &mut Printer<'_>,
    here: Nesting,
    binder: u64,
    after: usize,
) -> Result<(), AllocError> {
    if !printer.take(binder) {
        return Ok(());
    }
    printer.seek(Some(after));
    printer.write("dyn ")?;
    printer.put(Binder {
        binder_depth: here.binder_depth,
        count: binder as usize,
    })?;
    print_items(printer, here.under(binder as usize), Listed::Traits, " + ")?;
    print_dyn_lifetime(printer, here.binder_depth)
}

// The lifetime of a dyn type, which is outside its binder.
fn print_dyn_lifetime(printer: &mut Printer<'_>, binder_depth: usize) -> Result<(), AllocError> {
    let (life, end) = lifetime_form(printer.part.as_bytes(), printer.at);
    if printer.take_lifetime(life) {
        printer.seek(required_end(binder_depth, life, end));
        printer.put(DynLifetime(binder_depth, life))?;
    }
    Ok(())
}

// A function type whose ABI is invalid.
fn print_invalid_function(
    printer: &mut Printer<'_>,
    binder_depth: usize,
    binder: u64,
) -> Result<(), AllocError> {
    if printer.take(binder) {
        printer.put(Binder {
            binder_depth,
            count: binder as usize,
        })?;
        printer.invalid_syntax()?;
    }
    Ok(())
}
