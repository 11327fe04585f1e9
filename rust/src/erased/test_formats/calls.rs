// From crates/test_formats/src/calls.rt, by tools/erase.

//! Calls that no other question makes.

use crate::shim::{String, Vec};
use crate::erased::binfarce_bytes::ByteOrder;
use crate::erased::binfarce_bytes::functions::{FunctionSymbol, found_with};
use crate::erased::binfarce_bytes::parser::{Stream, number_at, slice_at};
use crate::erased::binfarce_figures::claims::Claims;
use crate::erased::binfarce_rows::head::push_head;
use crate::erased::binfarce_rows::json::{
    push_address_member, push_number_member, push_start, push_text_member,
};
use crate::erased::binfarce_tables::format::read_format;
use crate::erased::binfarce_tables::part;
use crate::erased::binfarce_tools::SymbolTable;
use crate::erased::binfarce_tools::functions::functions_of_file;
use crate::erased::binfarce_tools::list::{Out, push_section, push_section_part};
use crate::erased::binfarce_tools::report::{add_size, put_crate, write_made};
use crate::erased::binfarce_tools::tables::{Selection, Tables, read};
use crate::erased::binfarce_tools::writing::write_whole;
use crate::shim::alloc::{AllocError, Global};
use crate::shim::collections::BTreeMap;

/// What the call gives: of the bytes 1, 2, 3, of a function of 4 bytes at 16, of the bytes 0xFF and 0x80, or of a text.
pub fn answer(alloc: Global, call: &str) -> Result<String, AllocError> {
    let order = match call {
        "read big" => ByteOrder::BigEndian,
        _ => ByteOrder::LittleEndian,
    };
    let function = FunctionSymbol {
        name: "a",
        address: 16,
        size: 4,
    };
    match call {
        "number_at" => {
            let number = number_at::<u16>(&[1, 2, 3], 1, ByteOrder::BigEndian);
            String::formatted(alloc, format_args!("{number:?}"))
        }
        "slice_at" => {
            let slice = slice_at(&[1, 2, 3], 1, 2);
            String::formatted(alloc, format_args!("{slice:?}"))
        }
        "found_with" => {
            let last = found_with(None, function, 19).map(|f| f.address);
            let next = found_with(None, function, 20).map(|f| f.address);
            String::formatted(alloc, format_args!("{last:?} {next:?}"))
        }
        "write_whole" => {
            let mut out = Out::new(Vec::new(alloc));
            let ended = write_whole(&mut out, b"text");
            let taken = out.into_inner();
            String::formatted(alloc, format_args!("{ended:?} {:?}", core::str::from_utf8(&taken)))
        }
        "texts" => texts(alloc),
        _ => {
            let one = Stream::new(&[0xFF, 0x80], order).read::<i8>();
            let two = Stream::new(&[0xFF, 0x80], order).read::<i16>();
            String::formatted(alloc, format_args!("{one:?} {two:?}"))
        }
    }
}

// An object, the head of a line, sections without a name, the sum of 1 and 2, and the crate of a name.
fn texts(alloc: Global) -> Result<String, AllocError> {
    let mut text = String::new(alloc);
    push_start(&mut text, "a\"b")?;
    push_text_member(&mut text, "name", None)?;
    push_number_member(&mut text, "size", 16)?;
    push_address_member(&mut text, 0x1000)?;
    text.push_str("} ")?;
    push_head(&mut text, 0x1000, 16)?;
    push_section(&mut text, &Tables::Unknown, 7)?;
    push_section_part(&mut text, &Tables::Unknown, None, 8)?;
    push_section_part(&mut text, &Tables::Unknown, Some(32), 9)?;
    write!(text, " {:?}", sum_of_two(alloc)?)?;
    push_crate_written(alloc, &mut text)?;
    Ok(text)
}

fn sum_of_two(alloc: Global) -> Result<Option<u64>, AllocError> {
    let mut sums = BTreeMap::new(alloc);
    add_size(alloc, &mut sums, "a", 1)?;
    add_size(alloc, &mut sums, "a", 2)?;
    Ok(sums.get("a").copied())
}

fn push_crate_written(alloc: Global, text: &mut String) -> Result<(), AllocError> {
    let mut name = String::new(alloc);
    put_crate(alloc, &mut name, "_RNvC1b1c")?;
    let mut out = Out::new(Vec::new(alloc));
    let ended = write_made(&mut out, Ok(name));
    let taken = out.into_inner();
    write!(text, " {ended:?} {:?}", core::str::from_utf8(&taken))
}

/// The format of a file that is read at offsets, and the text in the part of it.
pub fn parts(alloc: Global, file: &[u8]) -> Result<String, AllocError> {
    let mut text = String::new(alloc);
    if let Ok(format) = read_format(alloc, &file, &mut ()) {
        write!(text, "{format:?} ")?;
    }
    if let Ok(names) = part(alloc, &file, &mut (), 216, 18) {
        write!(text, "{:?}", core::str::from_utf8(&names))?;
    }
    Ok(text)
}

fn push_sums(alloc: Global, tables: &Tables<'_>, text: &mut String) -> Result<(), AllocError> {
    if let Ok(claims) = Claims::of_tables(alloc, tables) {
        write!(text, "{} in {}, ", claims.total(), claims.len())?;
    }
    if let Ok(selected) = tables.functions(alloc) {
        let (mut functions, size) = selected.into_list();
        let first = functions.next().map(|f| f.address);
        write!(text, "{first:?} of {size:?}, ")?;
    }
    Ok(())
}

/// The sum of the sizes, how many functions there are, where the first one is, and the size of the section: of the tables
/// of the section, and of those of all sections; and the last two of the file.
pub fn sums(alloc: Global, section: &str, file: &[u8]) -> Result<String, AllocError> {
    let mut text = String::new(alloc);
    for selection in [Selection::Section(section), Selection::All] {
        if let Ok(tables) = read(alloc, &file, &mut (), SymbolTable::Symtab, selection) {
            push_sums(alloc, &tables, &mut text)?;
        }
    }
    if let Ok((mut functions, size)) = functions_of_file(alloc, file, section) {
        let first = functions.next().map(|f| f.address);
        write!(text, "{first:?} of {size}")?;
    }
    Ok(text)
}
