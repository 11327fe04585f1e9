// From crates/binfarce_needs/src/needs.rt, by tools/erase.

//! The symbols that a file needs.

use crate::shim::{Vec, to_usize};
use crate::erased::binfarce_needs::reading::Tables;
use crate::erased::binfarce_needs::versions::{Offsets, needed_versions};
use crate::erased::binfarce_bytes::ByteOrder;
use crate::erased::binfarce_bytes::parser::parse_null_string;
use crate::erased::binfarce_elf::class::{Half, SymbolRow, Width, row_at};
use crate::erased::binfarce_elf_memory::versions::{name_by, version_at};
use crate::shim::alloc::{AllocError, Global};

// The index of no section, which undefined symbols have.
const SHN_UNDEF: Half = 0;

/// A symbol that a file needs.
#[derive(Debug, Clone, Copy, PartialEq)]
pub struct Need<'a> {
    /// Its name, as it is stored.
    pub name: &'a str,
    /// Its type and its binding (`st_info`).
    pub info: u8,
    /// The name of its version, if it has one: `GLIBC_2.34`.
    pub version: Option<&'a str>,
    /// The name of the file that the version comes from: `libc.so.6`.
    pub from: Option<&'a str>,
}

/// The symbols that a file of this class with these tables needs, in the order of the symbol table: those that are
/// undefined, with a valid name. Names stay in the tables. The only error is a failed allocation.
pub fn needs_of<'a>(
    alloc: Global,
    tables: &'a Tables,
    width: Width,
    byte_order: ByteOrder,
) -> Result<Vec<Need<'a>>, AllocError> {
    let offsets = needed_versions(alloc, &tables.needed, byte_order)?;
    let needs = needs_in(
        alloc,
        width,
        byte_order,
        &tables.strings,
        &tables.rows,
        &tables.versions,
        &offsets,
    )?;
    Ok(needs)
}

// Those of these rows, by their versions.
fn needs_in<'a>(
    alloc: Global,
    width: Width,
    byte_order: ByteOrder,
    strings: &'a [u8],
    rows: &[u8],
    versions: &[u8],
    offsets: &Offsets,
) -> Result<Vec<Need<'a>>, AllocError> {
    let length = width.symbol_length();
    let mut needs = Vec::new(alloc);
    for k in 0..rows.len() / length {
        let row = row_at(width, rows, k * length, byte_order).unwrap();
        let version = version_at(versions, k, byte_order);
        match need_of(strings, offsets, k, row, version) {
            None => {}
            Some(need) => needs.push(need)?,
        }
    }
    Ok(needs)
}

// The symbol of row `k`, if it is needed, and its name is valid.
fn need_of<'a>(
    strings: &'a [u8],
    offsets: &Offsets,
    k: usize,
    row: SymbolRow,
    version: Half,
) -> Option<Need<'a>> {
    if !is_need(k, row) {
        return None;
    }
    let name = parse_null_string(strings, to_usize(row.name))?;
    Some(Need {
        name,
        info: row.info,
        version: name_by(strings, &offsets.names, version),
        from: name_by(strings, &offsets.files, version),
    })
}

// Whether row `k` is undefined, and has a name.
fn is_need(k: usize, row: SymbolRow) -> bool {
    k != 0 && row.section == SHN_UNDEF && row.name != 0
}
