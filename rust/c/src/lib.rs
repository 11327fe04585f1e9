//! The library for C and C++, which `binfarce.h` declares: each function calls the erased export of its name.
//!
//! All unsafe code of the libraries and programs is here: it borrows a pointer and a length from C as a slice. A panic doesn't unwind
//! into C: it ends the program.
#![cfg_attr(rustfmt, rustfmt::skip)]

use exported::exports::{self, *};
use std::{mem, ptr, slice};

/// The slice of `length` values at `start`. Where `length` is 0, `start` isn't used and may be null.
///
/// # Safety
///
/// `start` points to `length` readable values, and nothing writes to them during the borrow.
unsafe fn values<'a, T>(start: *const T, length: usize) -> &'a [T] {
    // SAFETY: required of the caller.
    if length == 0 { &[] } else { unsafe { slice::from_raw_parts(start, length) } }
}

/// The slice of `length` values at `start` that an export writes to. C needn't have initialised them: any bytes are values of
/// these types, numbers and raw pointers, and no export reads one that it hasn't written. The same holds of a struct that an export
/// fills.
///
/// # Safety
///
/// `start` points to `length` writable values, and nothing else reads or writes them during the borrow.
unsafe fn values_mut<'a, T>(start: *mut T, length: usize) -> &'a mut [T] {
    // SAFETY: required of the caller.
    if length == 0 { &mut [] } else { unsafe { &mut *ptr::slice_from_raw_parts_mut(start, length) } }
}

// From here on written by rust/c/generate from include/binfarce.h.

/// `struct binfarce_text` has the fields of the export's struct, at the same offsets.
const _: () = {
    #[repr(C)]
    struct Declared {
        status: u32,
        detail: u32,
        length: usize,
    }
    fn is_same(Text { status, detail, length }: Text) -> Declared {
        Declared { status, detail, length }
    }
    let _ = is_same;
    assert!(mem::offset_of!(Declared, status) == mem::offset_of!(Text, status));
    assert!(mem::offset_of!(Declared, detail) == mem::offset_of!(Text, detail));
    assert!(mem::offset_of!(Declared, length) == mem::offset_of!(Text, length));
    assert!(mem::size_of::<Declared>() == mem::size_of::<Text>());
};

/// `struct binfarce_name` has the fields of the export's struct, at the same offsets.
const _: () = {
    #[repr(C)]
    struct Declared {
        status: u32,
        kind: u32,
        complete_length: usize,
        trimmed_length: usize,
        crate_length: usize,
        has_crate: u32,
    }
    fn is_same(SymbolName { status, kind, complete_length, trimmed_length, crate_length, has_crate }: SymbolName) -> Declared {
        Declared { status, kind, complete_length, trimmed_length, crate_length, has_crate }
    }
    let _ = is_same;
    assert!(mem::offset_of!(Declared, status) == mem::offset_of!(SymbolName, status));
    assert!(mem::offset_of!(Declared, kind) == mem::offset_of!(SymbolName, kind));
    assert!(mem::offset_of!(Declared, complete_length) == mem::offset_of!(SymbolName, complete_length));
    assert!(mem::offset_of!(Declared, trimmed_length) == mem::offset_of!(SymbolName, trimmed_length));
    assert!(mem::offset_of!(Declared, crate_length) == mem::offset_of!(SymbolName, crate_length));
    assert!(mem::offset_of!(Declared, has_crate) == mem::offset_of!(SymbolName, has_crate));
    assert!(mem::size_of::<Declared>() == mem::size_of::<SymbolName>());
};

/// `struct binfarce_mangling` has the fields of the export's struct, at the same offsets.
const _: () = {
    #[repr(C)]
    struct Declared {
        part: *const u8,
        part_length: usize,
        kind: u32,
    }
    fn is_same(Mangling { part, part_length, kind }: Mangling) -> Declared {
        Declared { part, part_length, kind }
    }
    let _ = is_same;
    assert!(mem::offset_of!(Declared, part) == mem::offset_of!(Mangling, part));
    assert!(mem::offset_of!(Declared, part_length) == mem::offset_of!(Mangling, part_length));
    assert!(mem::offset_of!(Declared, kind) == mem::offset_of!(Mangling, kind));
    assert!(mem::size_of::<Declared>() == mem::size_of::<Mangling>());
};

/// `struct binfarce_elf_header` has the fields of the export's struct, at the same offsets.
const _: () = {
    #[repr(C)]
    struct Declared {
        elf_type: u16,
        machine: u16,
        version: u32,
        entry: u64,
        phoff: u64,
        shoff: u64,
        flags: u32,
        ehsize: u16,
        phentsize: u16,
        phnum: u16,
        shentsize: u16,
        shnum: u16,
        shstrndx: u16,
    }
    fn is_same(ElfHeader { elf_type, machine, version, entry, phoff, shoff, flags, ehsize, phentsize, phnum, shentsize, shnum, shstrndx }: ElfHeader) -> Declared {
        Declared { elf_type, machine, version, entry, phoff, shoff, flags, ehsize, phentsize, phnum, shentsize, shnum, shstrndx }
    }
    let _ = is_same;
    assert!(mem::offset_of!(Declared, elf_type) == mem::offset_of!(ElfHeader, elf_type));
    assert!(mem::offset_of!(Declared, machine) == mem::offset_of!(ElfHeader, machine));
    assert!(mem::offset_of!(Declared, version) == mem::offset_of!(ElfHeader, version));
    assert!(mem::offset_of!(Declared, entry) == mem::offset_of!(ElfHeader, entry));
    assert!(mem::offset_of!(Declared, phoff) == mem::offset_of!(ElfHeader, phoff));
    assert!(mem::offset_of!(Declared, shoff) == mem::offset_of!(ElfHeader, shoff));
    assert!(mem::offset_of!(Declared, flags) == mem::offset_of!(ElfHeader, flags));
    assert!(mem::offset_of!(Declared, ehsize) == mem::offset_of!(ElfHeader, ehsize));
    assert!(mem::offset_of!(Declared, phentsize) == mem::offset_of!(ElfHeader, phentsize));
    assert!(mem::offset_of!(Declared, phnum) == mem::offset_of!(ElfHeader, phnum));
    assert!(mem::offset_of!(Declared, shentsize) == mem::offset_of!(ElfHeader, shentsize));
    assert!(mem::offset_of!(Declared, shnum) == mem::offset_of!(ElfHeader, shnum));
    assert!(mem::offset_of!(Declared, shstrndx) == mem::offset_of!(ElfHeader, shstrndx));
    assert!(mem::size_of::<Declared>() == mem::size_of::<ElfHeader>());
};

/// `struct binfarce_function` has the fields of the export's struct, at the same offsets.
const _: () = {
    #[repr(C)]
    struct Declared {
        name: *const u8,
        name_length: usize,
        address: u64,
        size: u64,
    }
    fn is_same(Function { name, name_length, address, size }: Function) -> Declared {
        Declared { name, name_length, address, size }
    }
    let _ = is_same;
    assert!(mem::offset_of!(Declared, name) == mem::offset_of!(Function, name));
    assert!(mem::offset_of!(Declared, name_length) == mem::offset_of!(Function, name_length));
    assert!(mem::offset_of!(Declared, address) == mem::offset_of!(Function, address));
    assert!(mem::offset_of!(Declared, size) == mem::offset_of!(Function, size));
    assert!(mem::size_of::<Declared>() == mem::size_of::<Function>());
};

/// `struct binfarce_functions` has the fields of the export's struct, at the same offsets.
const _: () = {
    #[repr(C)]
    struct Declared {
        status: u32,
        detail: u32,
        count: usize,
        section_size: u64,
    }
    fn is_same(Functions { status, detail, count, section_size }: Functions) -> Declared {
        Declared { status, detail, count, section_size }
    }
    let _ = is_same;
    assert!(mem::offset_of!(Declared, status) == mem::offset_of!(Functions, status));
    assert!(mem::offset_of!(Declared, detail) == mem::offset_of!(Functions, detail));
    assert!(mem::offset_of!(Declared, count) == mem::offset_of!(Functions, count));
    assert!(mem::offset_of!(Declared, section_size) == mem::offset_of!(Functions, section_size));
    assert!(mem::size_of::<Declared>() == mem::size_of::<Functions>());
};

/// `struct binfarce_section` has the fields of the export's struct, at the same offsets.
const _: () = {
    #[repr(C)]
    struct Declared {
        name: *const u8,
        name_length: usize,
        segment: *const u8,
        segment_length: usize,
        address: u64,
        offset: u64,
        size: u64,
        file_size: u64,
        memory_size: u64,
        flags: u64,
        kind: u32,
        has_name: u32,
        has_bytes: u32,
    }
    fn is_same(Section { name, name_length, segment, segment_length, address, offset, size, file_size, memory_size, flags, kind, has_name, has_bytes }: Section) -> Declared {
        Declared { name, name_length, segment, segment_length, address, offset, size, file_size, memory_size, flags, kind, has_name, has_bytes }
    }
    let _ = is_same;
    assert!(mem::offset_of!(Declared, name) == mem::offset_of!(Section, name));
    assert!(mem::offset_of!(Declared, name_length) == mem::offset_of!(Section, name_length));
    assert!(mem::offset_of!(Declared, segment) == mem::offset_of!(Section, segment));
    assert!(mem::offset_of!(Declared, segment_length) == mem::offset_of!(Section, segment_length));
    assert!(mem::offset_of!(Declared, address) == mem::offset_of!(Section, address));
    assert!(mem::offset_of!(Declared, offset) == mem::offset_of!(Section, offset));
    assert!(mem::offset_of!(Declared, size) == mem::offset_of!(Section, size));
    assert!(mem::offset_of!(Declared, file_size) == mem::offset_of!(Section, file_size));
    assert!(mem::offset_of!(Declared, memory_size) == mem::offset_of!(Section, memory_size));
    assert!(mem::offset_of!(Declared, flags) == mem::offset_of!(Section, flags));
    assert!(mem::offset_of!(Declared, kind) == mem::offset_of!(Section, kind));
    assert!(mem::offset_of!(Declared, has_name) == mem::offset_of!(Section, has_name));
    assert!(mem::offset_of!(Declared, has_bytes) == mem::offset_of!(Section, has_bytes));
    assert!(mem::size_of::<Declared>() == mem::size_of::<Section>());
};

/// `struct binfarce_sections` has the fields of the export's struct, at the same offsets.
const _: () = {
    #[repr(C)]
    struct Declared {
        status: u32,
        count: usize,
    }
    fn is_same(Sections { status, count }: Sections) -> Declared {
        Declared { status, count }
    }
    let _ = is_same;
    assert!(mem::offset_of!(Declared, status) == mem::offset_of!(Sections, status));
    assert!(mem::offset_of!(Declared, count) == mem::offset_of!(Sections, count));
    assert!(mem::size_of::<Declared>() == mem::size_of::<Sections>());
};

/// `struct binfarce_bytes` has the fields of the export's struct, at the same offsets.
const _: () = {
    #[repr(C)]
    struct Declared {
        start: *const u8,
        length: usize,
    }
    fn is_same(Bytes { start, length }: Bytes) -> Declared {
        Declared { start, length }
    }
    let _ = is_same;
    assert!(mem::offset_of!(Declared, start) == mem::offset_of!(Bytes, start));
    assert!(mem::offset_of!(Declared, length) == mem::offset_of!(Bytes, length));
    assert!(mem::size_of::<Declared>() == mem::size_of::<Bytes>());
};

/// See `binfarce.h`.
#[no_mangle]
pub extern "C" fn binfarce_version() -> u32 {
    exports::binfarce_version()
}

/// # Safety
///
/// The caller keeps the rules of `binfarce.h`.
#[no_mangle]
pub unsafe extern "C" fn binfarce_terminate(out: *mut u8, out_length: usize, length: usize) -> usize {
    // SAFETY: the rules of binfarce.h say so; nothing is kept after the call.
    unsafe { exports::binfarce_terminate(values_mut(out, out_length), length) }
}

/// # Safety
///
/// The caller keeps the rules of `binfarce.h`.
#[no_mangle]
pub unsafe extern "C" fn binfarce_status_text(status: u32, out: *mut u8, out_length: usize) -> usize {
    // SAFETY: the rules of binfarce.h say so; nothing is kept after the call.
    unsafe { exports::binfarce_status_text(status, values_mut(out, out_length)) }
}

/// # Safety
///
/// The caller keeps the rules of `binfarce.h`.
#[no_mangle]
pub unsafe extern "C" fn binfarce_demangle(name: *const u8, name_length: usize, complete: *mut u8, complete_length: usize, trimmed: *mut u8, trimmed_length: usize, crate_name: *mut u8, crate_length: usize) -> SymbolName {
    // SAFETY: the rules of binfarce.h say so; nothing is kept after the call.
    unsafe { exports::binfarce_demangle(Global, values(name, name_length), values_mut(complete, complete_length), values_mut(trimmed, trimmed_length), values_mut(crate_name, crate_length)) }
}

/// # Safety
///
/// The caller keeps the rules of `binfarce.h`.
#[no_mangle]
pub unsafe extern "C" fn binfarce_trimmed(name: *const u8, name_length: usize, out: *mut u8, out_length: usize) -> Text {
    // SAFETY: the rules of binfarce.h say so; nothing is kept after the call.
    unsafe { exports::binfarce_trimmed(Global, values(name, name_length), values_mut(out, out_length)) }
}

/// # Safety
///
/// The caller keeps the rules of `binfarce.h`.
#[no_mangle]
pub unsafe extern "C" fn binfarce_crate_of(name: *const u8, name_length: usize, out: *mut u8, out_length: usize) -> Text {
    // SAFETY: the rules of binfarce.h say so; nothing is kept after the call.
    unsafe { exports::binfarce_crate_of(Global, values(name, name_length), values_mut(out, out_length)) }
}

/// # Safety
///
/// The caller keeps the rules of `binfarce.h`.
#[no_mangle]
pub unsafe extern "C" fn binfarce_mangling(name: *const u8, name_length: usize, out: *mut Mangling) -> u32 {
    // SAFETY: the rules of binfarce.h say so; nothing is kept after the call.
    unsafe { exports::binfarce_mangling(values(name, name_length), &mut *out) }
}

/// # Safety
///
/// The caller keeps the rules of `binfarce.h`.
#[no_mangle]
pub unsafe extern "C" fn binfarce_list(file: *const u8, file_length: usize, section: *const u8, section_length: usize, out: *mut u8, out_length: usize) -> Text {
    // SAFETY: the rules of binfarce.h say so; nothing is kept after the call.
    unsafe { exports::binfarce_list(Global, values(file, file_length), values(section, section_length), values_mut(out, out_length)) }
}

/// # Safety
///
/// The caller keeps the rules of `binfarce.h`.
#[no_mangle]
pub unsafe extern "C" fn binfarce_report(file: *const u8, file_length: usize, section: *const u8, section_length: usize, out: *mut u8, out_length: usize) -> Text {
    // SAFETY: the rules of binfarce.h say so; nothing is kept after the call.
    unsafe { exports::binfarce_report(Global, values(file, file_length), values(section, section_length), values_mut(out, out_length)) }
}

/// # Safety
///
/// The caller keeps the rules of `binfarce.h`.
#[no_mangle]
pub unsafe extern "C" fn binfarce_detect_format(file: *const u8, file_length: usize) -> u32 {
    // SAFETY: the rules of binfarce.h say so; nothing is kept after the call.
    unsafe { exports::binfarce_detect_format(values(file, file_length)) }
}

/// # Safety
///
/// The caller keeps the rules of `binfarce.h`.
#[no_mangle]
pub unsafe extern "C" fn binfarce_foreign(file: *const u8, file_length: usize) -> u32 {
    // SAFETY: the rules of binfarce.h say so; nothing is kept after the call.
    unsafe { exports::binfarce_foreign(values(file, file_length)) }
}

/// # Safety
///
/// The caller keeps the rules of `binfarce.h`.
#[no_mangle]
pub unsafe extern "C" fn binfarce_elf_header(file: *const u8, file_length: usize, out: *mut ElfHeader) -> u32 {
    // SAFETY: the rules of binfarce.h say so; nothing is kept after the call.
    unsafe { exports::binfarce_elf_header(values(file, file_length), &mut *out) }
}

/// # Safety
///
/// The caller keeps the rules of `binfarce.h`.
#[no_mangle]
pub unsafe extern "C" fn binfarce_functions(file: *const u8, file_length: usize, section: *const u8, section_length: usize, out: *mut Function, out_length: usize) -> Functions {
    // SAFETY: the rules of binfarce.h say so; nothing is kept after the call.
    unsafe { exports::binfarce_functions(Global, values(file, file_length), values(section, section_length), values_mut(out, out_length)) }
}

/// # Safety
///
/// The caller keeps the rules of `binfarce.h`.
#[no_mangle]
pub unsafe extern "C" fn binfarce_all_functions(file: *const u8, file_length: usize, table: u32, out: *mut Function, out_length: usize) -> Functions {
    // SAFETY: the rules of binfarce.h say so; nothing is kept after the call.
    unsafe { exports::binfarce_all_functions(Global, values(file, file_length), table, values_mut(out, out_length)) }
}

/// # Safety
///
/// The caller keeps the rules of `binfarce.h`.
#[no_mangle]
pub unsafe extern "C" fn binfarce_function_at(functions: *const Function, functions_length: usize, address: u64) -> usize {
    // SAFETY: the rules of binfarce.h say so; nothing is kept after the call.
    unsafe { exports::binfarce_function_at(values(functions, functions_length), address) }
}

/// # Safety
///
/// The caller keeps the rules of `binfarce.h`.
#[no_mangle]
pub unsafe extern "C" fn binfarce_sections(file: *const u8, file_length: usize, out: *mut Section, out_length: usize) -> Sections {
    // SAFETY: the rules of binfarce.h say so; nothing is kept after the call.
    unsafe { exports::binfarce_sections(values(file, file_length), values_mut(out, out_length)) }
}

/// # Safety
///
/// The caller keeps the rules of `binfarce.h`.
#[no_mangle]
pub unsafe extern "C" fn binfarce_section_bytes(file: *const u8, file_length: usize, name: *const u8, name_length: usize, out: *mut Bytes) -> u32 {
    // SAFETY: the rules of binfarce.h say so; nothing is kept after the call.
    unsafe { exports::binfarce_section_bytes(values(file, file_length), values(name, name_length), &mut *out) }
}
