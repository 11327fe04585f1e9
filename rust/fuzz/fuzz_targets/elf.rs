//! An ELF file of either class and order: a search finds what the walk has, and all that is returned is of the file.
#![no_main]

use binfarce::demangle::SymbolName;
use binfarce::{ByteOrder, Selection, SymbolTable, Tables, elf32, elf64};
use binfarce_fuzz::is_part;
use std::io::Cursor;

macro_rules! check {
    ($file:expr, $class:ident, $order:expr) => {{
        let file: &[u8] = $file;
        let Ok(elf) = $class::parse(file, $order) else {
            assert!(file.len() < 64);
            return;
        };
        let sections = elf.sections().collect::<Vec<_>>();
        assert!(sections.len() <= usize::from(elf.header().shnum) + 1);
        let is_whole = sections.iter().all(Result::is_ok);
        for (index, section) in sections.iter().flatten().enumerate() {
            assert_eq!(usize::from(section.index()), index);
            assert_eq!(elf.section_with_index(index as u32).unwrap().as_ref(), Some(section));
            if let Ok(bytes) = elf.section_bytes(section) {
                assert!(is_part(file, bytes) && bytes == &file[section.range().unwrap()]);
            }
            if let Some(name) = section.name(&elf) {
                assert!(is_part(file, name.as_bytes()));
                // The names of many sections may be long and overlap.
                if index < 8 {
                    let first = sections.iter().flatten().find(|section| section.name(&elf) == Some(name));
                    assert_eq!(elf.section_with_name(name).unwrap().as_ref(), first);
                }
            }
        }
        assert_eq!(elf.find_section(|_| false).is_ok(), is_whole);
        let named = elf.symbols(".text");
        match elf.functions(".text") {
            Ok((functions, size)) => {
                let (named, named_size) = named.unwrap();
                assert_eq!(named_size, size);
                let mut count = 0;
                for (function, symbol) in functions.zip(&named) {
                    assert!(is_part(file, function.name.as_bytes()));
                    assert_eq!((function.address, function.size), (symbol.address, symbol.size));
                    assert_eq!(SymbolName::demangle(function.name), symbol.name);
                    count += 1;
                }
                assert_eq!(count, named.len());
            }
            Err(refused) => assert_eq!(named.unwrap_err(), refused),
        }
        for table in [SymbolTable::Symtab, SymbolTable::Dynsym] {
            for function in elf.all_functions(table).into_iter().flatten() {
                assert!(is_part(file, function.function.name.as_bytes()));
                assert!(u64::from(function.section) <= u64::from(elf.header().shnum));
            }
        }
        let _ = elf.dynamic_symbols(".text").map(|(symbols, _)| symbols.len());
    }};
}

fn check_reading(file: &[u8]) {
    for selection in [Selection::Section(".text"), Selection::All] {
        let here = Tables::new(file, selection, SymbolTable::Symtab).and_then(|tables| {
            Ok(tables.functions()?.map(|it| (it.name.to_string(), it.address, it.size)).collect::<Vec<_>>())
        });
        let read = Tables::read(Cursor::new(file), selection, SymbolTable::Symtab).ok().and_then(|tables| {
            Some(tables.functions().ok()?.map(|it| (it.name.to_string(), it.address, it.size)).collect::<Vec<_>>())
        });
        assert_eq!(here.ok(), read);
    }
}

binfarce_fuzz::fuzz_target!(|file| {
    // Each symbol's name may be as long as the file.
    if file.len() > 1 << 14 {
        return;
    }
    check_reading(file);
    for order in [ByteOrder::LittleEndian, ByteOrder::BigEndian] {
        check!(file, elf32, order);
        check!(file, elf64, order);
    }
});
