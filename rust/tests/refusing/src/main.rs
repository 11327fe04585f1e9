//! Refuses each allocation of each public call in turn: the call must return an error, or what it returns with memory. A call that
//! asks for memory which it can't do without ends the program.

use binfarce::demangle::{Demangler, SymbolName, demangle, trimmed};
use binfarce::figures::{Figures, Key, Layout, Order, Shown};
use binfarce::*;
use std::alloc::{GlobalAlloc, Layout as Size, System};
use std::cell::Cell;
use std::fmt::Write;
use std::io::{self, Cursor};
use std::{hint, iter, ptr};

/// The system's memory, of which one request of this thread is refused.
struct Memory;

thread_local! {
    static LEFT: Cell<usize> = const { Cell::new(usize::MAX) };
}

fn is_refused() -> bool {
    LEFT.try_with(|left| {
        let n = left.get();
        left.set(n.wrapping_sub(usize::from(n != usize::MAX)));
        n == 0
    })
    .unwrap_or(false)
}

unsafe impl GlobalAlloc for Memory {
    unsafe fn alloc(&self, size: Size) -> *mut u8 {
        if is_refused() { ptr::null_mut() } else { unsafe { System.alloc(size) } }
    }

    unsafe fn realloc(&self, memory: *mut u8, size: Size, new: usize) -> *mut u8 {
        if is_refused() { ptr::null_mut() } else { unsafe { System.realloc(memory, size, new) } }
    }

    unsafe fn dealloc(&self, memory: *mut u8, size: Size) {
        unsafe { System.dealloc(memory, size) }
    }
}

#[global_allocator]
static MEMORY: Memory = Memory;

/// Output in no memory of its own.
struct Fixed {
    bytes: [u8; 4096],
    len: usize,
}

impl Fixed {
    fn new() -> Self {
        Fixed { bytes: [0; 4096], len: 0 }
    }
}

impl io::Write for Fixed {
    fn write(&mut self, bytes: &[u8]) -> io::Result<usize> {
        let len = bytes.len().min(self.bytes.len() - self.len);
        self.bytes[self.len..self.len + len].copy_from_slice(&bytes[..len]);
        self.len += len;
        Ok(len)
    }

    fn flush(&mut self) -> io::Result<()> {
        Ok(())
    }
}

impl Write for Fixed {
    fn write_str(&mut self, text: &str) -> std::fmt::Result {
        io::Write::write_all(self, text.as_bytes()).map_err(|_| std::fmt::Error)
    }
}

/// Runs a call with each of its allocations refused, until it needs no more of them. Returns how many there were.
fn each<T, E>(name: &str, call: impl Fn() -> Result<T, E>) -> usize {
    for number in 0.. {
        LEFT.with(|left| left.set(number));
        let answer = hint::black_box(call());
        let was_refused = LEFT.with(|left| left.replace(usize::MAX)) == usize::MAX;
        let failed = answer.is_err();
        drop(answer);
        if !was_refused {
            println!("{name}: {number}, {}", if failed { "refused" } else { "answered" });
            return number;
        }
    }
    0
}

const FILES: [(&str, &[u8]); 4] = [
    ("elf32", include_bytes!("../../../samples/elf32-big.bin")),
    ("elf64", include_bytes!("../../../samples/elf64-little.bin")),
    ("macho", include_bytes!("../../../samples/macho.bin")),
    ("pe", include_bytes!("../../../samples/pe.bin")),
];

fn main() {
    let mut all = 0;
    for name in ["_ZN3foo3bar17h05af221e174051e9E", "_RINvC1a1bhE", "main"] {
        all += each("try_demangle", || SymbolName::try_demangle(name));
        all += each("trimmed", || trimmed(name));
        all += each("crate_of", || Demangler::new().crate_of(name));
        all += each("push", || {
            let (mut demangler, mut text) = (Demangler::new(), String::new());
            demangler.push_trimmed(&mut text, name)?;
            demangler.push_complete(&mut text, name)?;
            demangler.push_crate(&mut text, name)
        });
        all += each("{}", || write!(Fixed::new(), "{} {0:#}", demangle(name)));
        all += each("filter", || filter(name, Form::Trimmed));
        all += each("filter_stream", || filter_stream(name.as_bytes(), Fixed::new(), Form::Complete));
    }
    let foreign: &[u8] = b"#!/bin/sh";
    for (format, whole) in FILES.into_iter().chain(iter::once(("foreign", foreign))) {
        println!("{format}");
        for file in [whole, &whole[..whole.len() - 9]] {
            let stream = || Cursor::new(file);
            all += each("functions", || functions(file, ".text").map(|it| it.0.count()));
            all += each("sections", || sections(file).map(Iterator::count));
            all += each("section_bytes", || section_bytes(file, ".none"));
            all += each("read_section", || read_section(stream(), ".text"));
            all += each("list", || list(file, ".text"));
            all += each("report", || report(file, ".text"));
            all += each("load_address", || load_address(file));
            all += each("read_load_address", || read_load_address(stream()));
            all += each("maps", || Process::of_maps(b"0-1 r-xp 0 0:0 0 /a\n1-2 r-xp 0 0:0 0 /b", |_| Ok(stream())));
            for selection in [Selection::Section(".text"), Selection::Section(".none"), Selection::All] {
                for table in [SymbolTable::Symtab, SymbolTable::Dynsym] {
                    all += each("new", || Tables::new(file, selection, table));
                    all += each("read", || Tables::read(stream(), selection, table));
                }
                let Ok(tables) = Tables::read(stream(), selection, SymbolTable::Symtab) else { continue };
                let (by_size, lines) = (Shown::new().with_order(Order::Size), Layout::Lines);
                all += each("functions", || tables.functions().map(Iterator::count));
                all += each("all_functions", || tables.all_functions().map(|it| it.map(Iterator::count)));
                all += each("sums_by_key", || tables.sums_by_key(Key::Generic));
                all += each("sums_by", || tables.sums_by(|function| Ok(function.name.len())));
                all += each("list_to", || tables.list_to(Fixed::new()));
                all += each("report_to", || tables.report_to(Fixed::new()));
                all += each("rows_to", || tables.rows_to(&by_size, lines, Fixed::new()));
                all += each("figures_to", || tables.figures_to(&Figures::by(Key::Function), lines, Fixed::new()));
                all += each("changes_to", || tables.changes_to(&tables, &Figures::by(Key::Crate), lines, Fixed::new()));
                all += each("map_to", || tables.map_to("a", Key::Crate, Fixed::new()));
                all += each("stacks_to", || tables.stacks_to(Fixed::new()));
                // Into an output that takes nothing.
                all += each("list_to", || tables.list_to(&mut [][..]));
                all += each("symbolizer", || Symbolizer::new(&tables)?.into_owned().map_err(Error::from));
            }
        }
        let order = ByteOrder::LittleEndian;
        all += each("try_symbols", || match detect_format(whole) {
            Format::Elf32 { byte_order } => elf32::parse(whole, byte_order)?.try_symbols(".text"),
            Format::Elf64 { byte_order } => elf64::parse(whole, byte_order)?.try_symbols(".text"),
            Format::PE => pe::parse(whole)?.try_symbols(),
            _ => macho::parse(whole)?.try_symbols(),
        });
        all += each("all_functions", || match detect_format(whole) {
            Format::Elf32 { byte_order } => elf32::parse(whole, byte_order)?.all_functions(SymbolTable::Symtab),
            Format::Elf64 { .. } => elf64::parse(whole, order)?.all_functions(SymbolTable::Symtab),
            Format::PE => pe::parse(whole)?.all_functions(),
            _ => macho::parse(whole)?.all_functions(),
        });
        all += each("dynamic_symbols", || elf64::parse(whole, order)?.dynamic_symbols(".text"));
    }
    println!("{all} allocations were refused");
}
