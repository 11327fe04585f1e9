//! What README.md shows: each line of its example in Rust, and each call of this crate in its table, is here and runs.

use binfarce::demangle::{Demangler, Kind, SymbolName, demangle, trimmed};
use binfarce::figures::{Figures, Key, Layout, Shown};
use binfarce::*;
use std::fs::File;
use std::io::{self, Cursor, Read, Seek};

const SAMPLE: &str = concat!(env!("CARGO_MANIFEST_DIR"), "/samples/elf64-little.bin");

#[test]
fn example() -> Result<(), Box<dyn std::error::Error>> {
    std::env::set_current_dir(env!("CARGO_MANIFEST_DIR"))?;
    let file = std::fs::read("samples/elf64-little.bin")?;
    let (functions, _text_size) = binfarce::functions(&file, ".text")?;
    for function in functions {
        println!("{:016x} {}", function.address, binfarce::demangle::trimmed(function.name)?);
    }
    Ok(())
}

#[test]
fn names() -> Result<(), Box<dyn std::error::Error>> {
    let (s, text) = ("_RNvC1a1b", "in _RNvC1a1b");
    assert_eq!(format!("{}", demangle(s)), "a[0]::b");
    assert_eq!([format!("{:#}", demangle(s)), trimmed(s)?], ["a::b"; 2]);
    assert_eq!(SymbolName::demangle(s), SymbolName::try_demangle(s)?);
    let (mut all, mut demangler) = (String::new(), Demangler::new());
    demangler.push_trimmed(&mut all, s)?;
    demangler.push_complete(&mut all, s)?;
    assert!(demangler.push_crate(&mut all, s)? && all == "a::ba[0]::ba");
    assert!(demangle(s).kind() != Kind::Unknown);
    let mut filtered = Vec::new();
    let (input, output) = (text.as_bytes(), &mut filtered);
    filter_stream(input, output, Form::Trimmed)?;
    assert_eq!(filtered, filter(text, Form::Trimmed)?.into_bytes());
    Ok(())
}

#[test]
fn one_file() -> Result<(), Box<dyn std::error::Error>> {
    let (file, name) = (std::fs::read(SAMPLE)?, ".text");
    let Format::Elf64 { byte_order } = detect_format(&file) else { panic!() };
    let reader = elf64::parse(&file, byte_order)?;
    assert_eq!(sections(&file)?.count(), reader.header().shnum.into());
    assert_eq!(reader.sections().count(), 5);
    let section = reader.section_with_name(name)?.ok_or(name)?;
    assert_eq!((section.address(), section.offset(), section.range()?.len() as u64), (0, 64, section.size()));
    let bytes = section_bytes(&file, name)?;
    assert_eq!(functions(&file, ".text")?.0.count(), reader.functions(".text")?.0.count());
    assert_eq!(reader.symbols(".text")?, reader.try_symbols(".text")?);
    assert!(elf32::parse(b"", byte_order).is_err() && macho::parse(b"").is_err() && pe::parse(b"").is_err());
    let file = File::open(SAMPLE)?;
    assert_eq!(read_section(file, name)?, bytes);
    Ok(())
}

#[test]
fn one_file_of_another_format() -> Result<(), Box<dyn std::error::Error>> {
    let file = std::fs::read(concat!(env!("CARGO_MANIFEST_DIR"), "/samples/macho.bin"))?;
    let (reader, segment, name) = (macho::parse(&file)?, "__TEXT", "__text");
    assert_eq!(reader.section_with_name(segment, name)?, reader.sections().next().transpose()?);
    assert_eq!(reader.functions()?.0.len(), reader.symbols()?.0.len());
    let file = std::fs::read(concat!(env!("CARGO_MANIFEST_DIR"), "/samples/pe.bin"))?;
    let (reader, name) = (pe::parse(&file)?, ".text");
    assert_eq!(reader.section_with_name(name)?, reader.sections().next().transpose()?);
    assert_eq!(reader.functions()?.0.len(), reader.symbols()?.0.len());
    Ok(())
}

fn read(file: impl Read + Seek) -> io::Result<Tables<'static>> {
    Ok(Tables::read(file, Selection::Section(".text"), SymbolTable::Symtab)?)
}

#[test]
fn tables() -> Result<(), Box<dyn std::error::Error>> {
    let (file, base, address) = (std::fs::read(SAMPLE)?, 0x5000, 0x6004);
    assert_eq!(Tables::new(&file, Selection::All, SymbolTable::Symtab)?.functions()?.count(), 3);
    let e = Tables::new(&file, Selection::All, SymbolTable::Dynsym).unwrap_err();
    assert!(e.kind() == ErrorKind::NoSymbolTable && e.kind() != ErrorKind::NoSection);
    let e = io::Error::from(e);
    assert!(Error::of_io(&e).is_some());
    let tables = read(File::open(SAMPLE)?)?;
    let symbolizer = Symbolizer::new(&tables)?.with_base(base);
    let found = symbolizer.find(address);
    assert!(found.is_some() && found == symbolizer.find_return(address));
    let owned = Symbolizer::new(&tables)?.with_base(base).into_owned()?;
    assert_eq!(owned.find(address), found);
    let (figures, shown) = (Figures::by(Key::Crate).with_std_joined(), Shown::new());
    let (mut listed, mut rows, mut reported) = (Vec::new(), Vec::new(), Vec::new());
    tables.list_to(&mut listed)?;
    tables.rows_to(&shown, Layout::Lines, &mut rows)?;
    tables.report_to(&mut reported)?;
    let file = std::fs::read(SAMPLE)?;
    assert_eq!((&listed, &*rows), (&rows, list(&file, ".text")?.as_bytes()));
    assert_eq!(reported, report(&file, ".text")?.into_bytes());
    tables.figures_to(&figures, Layout::Lines, io::sink())?;
    tables.changes_to(&tables, &figures, Layout::Lines, io::sink())?;
    tables.map_to("title", Key::Crate, io::sink())?;
    tables.stacks_to(io::sink())?;
    assert_eq!(tables.sums_by_key(figures.grouping)?.total, tables.sums_by(|function| Ok(function.address))?.total);
    Ok(())
}

#[test]
fn several_files() -> Result<(), Box<dyn std::error::Error>> {
    let (maps, path, address) = (b"5000-6000 r-xp 00000000 fe:00 1  /lib/libapp.so\n", "libapp.so", 0x6004);
    let file = &std::fs::read(SAMPLE)?;
    let tables = Tables::new(file, Selection::All, SymbolTable::Symtab)?;
    let loaded = load_address(file)?;
    let symbolizer = Symbolizer::new(&tables)?.with_linked(loaded.map_or(0, |loaded| loaded.address));
    let symbolizers = [symbolizer.with_base(mapped_at(maps, path, loaded).unwrap())];
    assert_eq!(Symbolizer::find_among(&symbolizers, address).unwrap().0, 0);
    Ok(())
}

#[test]
#[cfg(target_os = "linux")]
fn a_process() -> Result<(), Box<dyn std::error::Error>> {
    let address = main_of_tests as *const () as usize as u64 + 1;
    let process = Process::own()?;
    assert!(process.find_return(address).is_some_and(|it| it.function.name.contains("main_of_tests")));
    let (maps, open) = (b"5000-6000 r-xp 00000000 fe:00 1  /lib/libapp.so\n", |_: &str| Ok(Cursor::new("#!/bin/sh")));
    let process = Process::of_maps(maps, open)?;
    let (path, e): (&str, &StreamError) = process.refused().next().unwrap();
    assert_eq!((path, e.refusal().map(|e| e.kind())), ("/lib/libapp.so", Some(ErrorKind::UnknownFormat)));
    Ok(())
}

#[inline(never)]
fn main_of_tests() {
    println!("called by nobody");
}

#[test]
fn all_that_the_readme_shows_is_here() {
    let readme = include_str!("../README.md");
    let (before, table) = readme.split_once("\n## The API beside other crates\n").unwrap();
    let calls = table.lines().skip(3).take_while(|row| row.starts_with('|')).flat_map(|row| {
        let cell = row.split('|').nth(2).unwrap();
        cell.split('`').skip(1).step_by(2).map(|call| call.split(", ..").next().unwrap())
    });
    let lines = before.split("```rust\n").nth(1).unwrap().split("```").next().unwrap().lines().skip(1);
    let (here, missing): (Vec<_>, Vec<_>) =
        calls.chain(lines).partition(|shown| include_str!("readme.rs").contains(shown.trim()));
    assert_eq!(missing, [""; 0]);
    assert!(here.len() > 40);
}
