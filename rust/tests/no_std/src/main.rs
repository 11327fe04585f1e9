//! A program without std: it prints what names and a file in memory are, each line from a buffer of 200 bytes. Then it panics, and its
//! handler prints a name, also if every allocation is refused. Rust's std would bring a second handler, which rustc refuses.
#![no_std]
#![no_main]

extern crate alloc;

use binfarce::demangle::{demangle, trimmed, SymbolName};
use binfarce::figures::Key;
use binfarce::{ErrorKind, Form, Selection, SymbolTable, Symbolizer, Tables};
use core::alloc::{GlobalAlloc, Layout};
use core::fmt::{self, Write};
use core::sync::atomic::{AtomicBool, Ordering::Relaxed};

#[link(name = "c")]
extern "C" {
    fn aligned_alloc(align: usize, size: usize) -> *mut u8;
    fn free(memory: *mut u8);
    fn write(file: i32, bytes: *const u8, len: usize) -> isize;
    fn _exit(status: i32) -> !;
}

/// C's memory, until it runs out.
struct Memory;

static RUN_OUT: AtomicBool = AtomicBool::new(false);

unsafe impl GlobalAlloc for Memory {
    unsafe fn alloc(&self, layout: Layout) -> *mut u8 {
        let align = layout.align().max(16);
        match RUN_OUT.load(Relaxed) {
            true => core::ptr::null_mut(),
            false => aligned_alloc(align, (layout.size() + align - 1) / align * align),
        }
    }

    unsafe fn dealloc(&self, memory: *mut u8, _: Layout) {
        free(memory)
    }
}

#[global_allocator]
static MEMORY: Memory = Memory;

/// A line on the stack. What has no room is refused.
struct Line {
    bytes: [u8; 200],
    len: usize,
}

impl Write for Line {
    fn write_str(&mut self, text: &str) -> fmt::Result {
        let room = self.bytes.get_mut(self.len..self.len + text.len()).ok_or(fmt::Error)?;
        room.copy_from_slice(text.as_bytes());
        self.len += text.len();
        Ok(())
    }
}

fn print(text: fmt::Arguments<'_>) {
    let mut line = Line { bytes: [0; 200], len: 0 };
    let fits = writeln!(line, "{text}");
    let text = if fits.is_ok() { &line.bytes[..line.len] } else { b"a line is too long\n" };
    unsafe { write(1, text.as_ptr(), text.len()) };
}

#[panic_handler]
fn panicked(_: &core::panic::PanicInfo<'_>) -> ! {
    let name = demangle("_RNvC1a1b");
    print(format_args!("panicked in {name:#}"));
    RUN_OUT.store(true, Relaxed);
    print(format_args!("panicked in {name:#}, {:?}, {:?}", name.kind(), SymbolName::try_demangle(name.part()).is_err()));
    unsafe { _exit(7) }
}

static FILE: &[u8] = include_bytes!("../../../samples/elf64-little.bin");

fn show() -> Result<(), binfarce::Error> {
    print(format_args!("{}", demangle("_RNvC1a1b")));
    print(format_args!("{}", trimmed("_ZN3foo3bar17h05af221e174051e9E")?));
    print(format_args!("{}", binfarce::filter("in _RNvC1a1b.", Form::Trimmed)?));
    print(format_args!("{} of {} bytes", binfarce::detect_format(FILE), FILE.len()));
    for section in binfarce::sections(FILE)? {
        let section = section?;
        print(format_args!("{:?} {}", section.name, section.size));
    }
    print(format_args!("{}", binfarce::list(FILE, ".text")?));
    print(format_args!("{}", binfarce::report(FILE, ".text")?));
    let tables = Tables::new(FILE, Selection::All, SymbolTable::Symtab)?;
    for function in tables.functions()? {
        print(format_args!("{:x} {}", function.address, function.name));
    }
    let symbolizer = Symbolizer::new(&tables)?.into_owned()?;
    print(format_args!("{:?}", symbolizer.find(0x1014).map(|found| found.0.name)));
    print(format_args!("{:?}", tables.sums_by_key(Key::Crate)?.rows));
    let kind = Tables::new(FILE, Selection::All, SymbolTable::Dynsym).err().map(|e| e.kind());
    print(format_args!("{}", kind == Some(ErrorKind::NoSymbolTable)));
    print(format_args!("{}", binfarce::sections(b"#!/bin/sh").unwrap_err()));
    Ok(())
}

#[no_mangle]
extern "C" fn main() -> i32 {
    if let Err(e) = show() {
        print(format_args!("{e}"));
    }
    panic!("as its last line says")
}
