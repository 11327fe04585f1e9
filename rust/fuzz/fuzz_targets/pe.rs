//! A PE file: a search finds what the walk has, all that is returned is of the file, and it may be read at offsets.
#![no_main]

use binfarce::demangle::SymbolName;
use binfarce::{Format, Selection, SymbolTable, Tables, detect_format, pe};
use binfarce_fuzz::is_part;
use std::io::Cursor;

binfarce_fuzz::fuzz_target!(|file| {
    let Ok(reader) = pe::parse(file) else { return };
    let sections = reader.sections().collect::<Vec<_>>();
    assert!(sections.len() <= usize::from(reader.header().number_of_sections) + 1);
    for section in sections.iter().flatten() {
        assert!(is_part(file, section.name().as_bytes()));
        let first = sections.iter().flatten().find(|it| it.name() == section.name());
        assert_eq!(reader.section_with_name(section.name()).unwrap().as_ref(), first);
        if let Ok(bytes) = reader.section_bytes(section) {
            assert!(is_part(file, bytes) && bytes == &file[section.range().unwrap()]);
        }
    }
    assert_eq!(reader.find_section(|_| false).is_ok(), sections.iter().all(Result::is_ok));
    match (reader.functions(), reader.try_symbols()) {
        (Ok((functions, size)), Ok((symbols, symbols_size))) => {
            assert_eq!((functions.len(), size), (symbols.len(), symbols_size));
            for (function, symbol) in functions.iter().zip(&symbols) {
                assert_eq!((function.address, function.size), (symbol.address, symbol.size));
                assert_eq!(SymbolName::demangle(function.name), symbol.name);
            }
            assert!(functions.windows(2).all(|two| two[0].address <= two[1].address));
        }
        (functions, symbols) => assert_eq!(functions.unwrap_err(), symbols.unwrap_err()),
    }
    for function in reader.all_functions().into_iter().flatten() {
        assert!(function.section > 0 && is_part(file, function.function.name.as_bytes()));
    }
    if detect_format(file) == Format::PE {
        for selection in [Selection::Section(".text"), Selection::All] {
            let here =
                Tables::new(file, selection, SymbolTable::Symtab).and_then(|tables| Ok(tables.functions()?.count()));
            let read = Tables::read(Cursor::new(file), selection, SymbolTable::Symtab);
            assert_eq!(here.ok(), read.ok().and_then(|tables| Some(tables.functions().ok()?.count())));
        }
    }
});
