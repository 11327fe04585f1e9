// From crates/binfarce_c/src/names.rt, by tools/erase.

//! Names of symbols in readable form.

use crate::shim::String;
use crate::erased::binfarce_c::buffer::{Text, give, put};
use crate::erased::binfarce_c::functions::start;
use crate::erased::binfarce_c::status::{NONE, NOT_UTF8, OK, OUT_OF_MEMORY, number_of};
use crate::erased::binfarce::demangle::{self, Demangled, Kind, crate_of, push_trimmed};
use crate::shim::alloc::Global;
use crate::shim::ptr;
use core::str;

/// What `binfarce_demangle` returns: `struct binfarce_name`.
#[repr(C)]
pub struct SymbolName {
    /// How the call ended.
    pub status: u32,
    /// How the name is mangled: 0 unknown, 1 legacy, 2 v0.
    pub kind: u32,
    /// The whole length of the complete text in bytes.
    pub complete_length: usize,
    /// The whole length of the trimmed text in bytes.
    pub trimmed_length: usize,
    /// The whole length of the crate's name in bytes.
    pub crate_length: usize,
    /// 1 if the name has a crate, and else 0.
    pub has_crate: u32,
}

/// How a name is mangled, and the part of it that is kept: `struct binfarce_mangling`.
#[repr(C)]
#[derive(Clone, Copy)]
pub struct Mangling {
    /// The first byte of the part, in the name; null if the part is empty.
    pub part: *const u8,
    /// The length of the part in bytes.
    pub part_length: usize,
    /// How the name is mangled: 0 unknown, 1 legacy, 2 v0.
    pub kind: u32,
}

/// The readable form of a name, all of it: the complete text, the trimmed one and the crate, each in a buffer of its
/// own. See `binfarce.h`.
pub fn binfarce_demangle(
    alloc: Global,
    name: &[u8],
    complete: &mut [u8],
    trimmed: &mut [u8],
    crate_name: &mut [u8],
) -> SymbolName {
    let Ok(name) = str::from_utf8(name) else {
        return no_name(NOT_UTF8);
    };
    let Ok(found) = demangle::SymbolName::demangle(alloc, name) else {
        return no_name(OUT_OF_MEMORY);
    };
    let crate_text = found.crate_name.as_deref().unwrap_or("").as_bytes();
    put(found.complete.as_bytes(), complete);
    put(found.trimmed.as_bytes(), trimmed);
    put(crate_text, crate_name);
    SymbolName {
        status: OK,
        kind: kind_number(found.kind),
        complete_length: found.complete.len(),
        trimmed_length: found.trimmed.len(),
        crate_length: crate_text.len(),
        has_crate: number_of(found.crate_name.is_some()),
    }
}

/// The trimmed text of a name, in a buffer. See `binfarce.h`.
pub fn binfarce_trimmed(alloc: Global, name: &[u8], out: &mut [u8]) -> Text {
    let Ok(name) = str::from_utf8(name) else {
        return none(NOT_UTF8);
    };
    let mut text = String::new(alloc);
    match push_trimmed(alloc, &mut text, name) {
        Ok(()) => give(text.as_bytes(), out),
        Err(_) => none(OUT_OF_MEMORY),
    }
}

/// The crate of a name, in a buffer. See `binfarce.h`.
pub fn binfarce_crate_of(alloc: Global, name: &[u8], out: &mut [u8]) -> Text {
    let Ok(name) = str::from_utf8(name) else {
        return none(NOT_UTF8);
    };
    match crate_of(alloc, name) {
        Ok(Some(text)) => give(text.as_bytes(), out),
        Ok(None) => none(NONE),
        Err(_) => none(OUT_OF_MEMORY),
    }
}

/// How a name is mangled. Nothing is allocated. See `binfarce.h`.
pub fn binfarce_mangling(name: &[u8], out: &mut Mangling) -> u32 {
    let Ok(name) = str::from_utf8(name) else {
        *out = Mangling {
            part: ptr::null(),
            part_length: 0,
            kind: 0,
        };
        return NOT_UTF8;
    };
    *out = mangling_of(demangle::demangle(name));
    OK
}

fn mangling_of(name: Demangled<'_>) -> Mangling {
    let part = name.part().as_bytes();
    Mangling {
        part: start(part),
        part_length: part.len(),
        kind: kind_number(name.kind()),
    }
}

fn kind_number(kind: Kind) -> u32 {
    kind as u32
}

// No name, for this reason.
fn no_name(status: u32) -> SymbolName {
    SymbolName {
        status,
        kind: 0,
        complete_length: 0,
        trimmed_length: 0,
        crate_length: 0,
        has_crate: 0,
    }
}

/// No text, for this reason.
pub(crate) fn none(status: u32) -> Text {
    Text {
        status,
        detail: 0,
        length: 0,
    }
}
