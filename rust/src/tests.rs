//! Tests of the public items: the signatures and the `Debug` output of the original, errors, and failed allocations. The
//! `Debug` output is what the original prints of the samples.

use crate::demangle::{Demangler, Kind, SymbolData, SymbolName, trimmed};
use crate::figures::{Figures, Grouping, Growth, Key, Layout, Naming, Order, Shown};
use crate::shim::test::refusing;
use crate::*;
use std::collections::HashSet;
use std::fmt::Debug;
use std::hash::Hash;
use std::io::{self, Cursor, ErrorKind, Read, Seek, SeekFrom, Write};
use std::iter::FusedIterator;

const ELF32_LITTLE: &[u8] = include_bytes!("../samples/elf32-little.bin");
const ELF32_BIG: &[u8] = include_bytes!("../samples/elf32-big.bin");
const ELF64_LITTLE: &[u8] = include_bytes!("../samples/elf64-little.bin");
const ELF64_BIG: &[u8] = include_bytes!("../samples/elf64-big.bin");
const MACHO: &[u8] = include_bytes!("../samples/macho.bin");
const PE: &[u8] = include_bytes!("../samples/pe.bin");

const OF_ELF: &str = "0000000000001000         16 foo\ntext 32\n";
const OF_MACHO: &str = "\
0000000000001000         64 a
0000000000001000         64 b
0000000000001040        192 c
text 256
";
const OF_PE: &str = "\
0000000000000000         64 b
0000000000000000         64 d
0000000000000040        192 c
0000000000000100        128 e
0000000000000180          0 a
text 256
";

/// A file of each format, and its listing.
const FILES: [(&[u8], &str); 6] = [
    (ELF32_LITTLE, OF_ELF),
    (ELF32_BIG, OF_ELF),
    (ELF64_LITTLE, OF_ELF),
    (ELF64_BIG, OF_ELF),
    (MACHO, OF_MACHO),
    (PE, OF_PE),
];

/// A file's symbols as code written for the original asks for them.
fn symbols(file: &[u8]) -> Result<(Vec<SymbolData>, u64), ParseError> {
    match detect_format(file) {
        Format::Elf32 { byte_order } => elf32::parse(file, byte_order)?.symbols(".text"),
        Format::Elf64 { byte_order } => elf64::parse(file, byte_order)?.symbols(".text"),
        Format::Macho => macho::parse(file)?.symbols(),
        Format::PE => pe::parse(file)?.symbols(),
        Format::Unknown => Ok((Vec::new(), 0)),
    }
}

fn lines(symbols: &[SymbolData], size: u64) -> String {
    let line = |s: &SymbolData| format!("{:016x} {:>10} {}\n", s.address, s.size, s.name.trimmed);
    symbols.iter().map(line).collect::<String>() + &format!("text {size}\n")
}

/// The listing that [`Tables`] make: of the sample PE file no size passes the end of its section, where `e` is.
fn of_tables(listing: &str) -> String {
    listing.replace("       128 e", "         0 e")
}

#[test]
fn symbols_of_each_format() {
    for (file, listing) in FILES {
        let (found, size) = symbols(file).unwrap();
        assert_eq!(lines(&found, size), listing);
        assert_eq!(list(file, ".text").unwrap(), listing);
        let (stored, size) = functions(file, ".text").unwrap();
        let named =
            |f: FunctionSymbol<'_>| SymbolData { name: SymbolName::demangle(f.name), address: f.address, size: f.size };
        assert_eq!(lines(&stored.map(named).collect::<Vec<_>>(), size), of_tables(listing));
    }
}

#[test]
fn sections_of_each_format() {
    for (file, _) in FILES {
        let text = sections(file).unwrap().map(Result::unwrap).find(|s| matches!(s.name, Some(".text" | "__text")));
        assert!(text.is_some_and(|s| s.size == 32 || s.size == 256));
    }
}

/// The text that a call writes.
fn written<T>(write: impl FnOnce(&mut Vec<u8>) -> Result<T, StreamError>) -> String {
    let mut text = Vec::new();
    write(&mut text).unwrap();
    String::from_utf8(text).unwrap()
}

#[test]
fn tables_in_memory_and_read_at_offsets() {
    for (file, listing) in FILES {
        let all = Tables::new(file, Selection::All, SymbolTable::Symtab).unwrap();
        let text_of_all = written(|output| all.list_to(output));
        for selection in [Selection::Section(".text"), Selection::All] {
            let tables = Tables::new(file, selection, SymbolTable::Symtab).unwrap();
            let read = Tables::read(Cursor::new(file), selection, SymbolTable::Symtab).unwrap();
            let found = tables.functions().unwrap().collect::<Vec<_>>();
            assert!(read.functions().unwrap().eq(found.iter().copied()));
            let all = read.all_functions().unwrap().map(|functions| functions.collect::<Vec<_>>());
            assert_eq!(all.is_some(), selection == Selection::All);
            // The ELF files are objects.
            assert_eq!(all.is_some() && detect_format(file) != Format::Macho, read.shares_addresses());
            for (one, function) in all.into_iter().flatten().zip(&found) {
                assert_eq!(one.function, *function);
                assert!(read.section_name(one.section).is_some_and(|name| text_of_all.contains(&format!(" {name} "))));
            }
            let text = written(|output| tables.list_to(output));
            assert_eq!(written(|output| read.list_to(output)), text);
            for key in [Key::Crate, Key::Module, Key::Function, Key::Generic, Key::Section] {
                let figures = Figures::by(key);
                let sums = tables.sums_by_key(figures.grouping).unwrap();
                assert_eq!(read.sums_by_key(figures.grouping).unwrap(), sums);
                let objects =
                    written(|output| read.figures_to(&figures, Layout::Objects { file: "a", section: "" }, output));
                let row = |(name, size): &(String, u64)| format!("\"name\":\"{name}\",\"size\":{size},");
                assert!(sums.rows.iter().all(|it| objects.contains(&row(it))), "{objects}");
                assert_eq!(objects.lines().count(), sums.rows.len() + 1);
                assert!(objects.contains(&format!("\"sum\":{}", sums.total)), "{objects}");
                assert_eq!(sums.rows.iter().map(|row| row.1).sum::<u64>(), sums.total);
            }
            let crate_of = |f: FunctionSymbol<'_>| Ok(Demangler::new().crate_of(f.name)?.unwrap_or("[unknown]".into()));
            let sums = tables.sums_by(crate_of).unwrap();
            let lines = sums.rows.iter().map(|(name, sum)| format!("{sum:>10} {name}\n")).collect::<String>();
            let size =
                if selection == Selection::All { String::new() } else { format!("text {}\n", sums.section_size) };
            let reported = format!("{lines}sum {}\n{size}", sums.total);
            assert_eq!(written(|output| read.report_to(output)), reported);
            let picture = written(|output| read.map_to("file", Key::Crate, output));
            assert!(picture.starts_with("<svg ") && sums.rows.iter().all(|(name, _)| picture.contains(name)));
            let stacks = written(|output| read.stacks_to(output));
            let sizes = stacks.lines().map(|line| line.rsplit(' ').next().unwrap().parse::<u64>().unwrap());
            assert_eq!(
                sizes.sum::<u64>(),
                tables.sums_by_key(Figures::by(Key::Crate).grouping).unwrap().total,
                "{stacks}"
            );
            let shown = Shown::new().with_order(Order::Size).with_first(1).with_naming(Naming::Stored).without_total();
            let objects =
                written(|output| read.rows_to(&shown, Layout::Objects { file: "a", section: ".text" }, output));
            assert_eq!(objects.matches("{\"file\":\"a\"").count(), found.len().min(1));
            let by_crate = Figures::by(Key::Crate);
            let total = read.changes_to(&tables, &by_crate, Layout::Lines, io::sink()).unwrap();
            assert_eq!(total.old, total.new);
            if selection == Selection::All {
                assert_eq!(text.lines().count(), found.len());
                assert_eq!(sums.section_size, sums.total);
            } else {
                let report = report(file, ".text").unwrap().replace("448", "320");
                assert_eq!((text, reported), (of_tables(listing), report));
            }
            let sums = read.sums_by(|function| Ok(function.name.len())).unwrap();
            assert!(sums.rows.windows(2).all(|rows| rows[0].0 < rows[1].0));
            for (len, sum) in &sums.rows {
                assert_eq!(*sum, found.iter().filter(|f| f.name.len() == *len).map(|f| f.size).sum::<u64>());
            }
            assert_eq!((sums.rows.iter().map(|row| row.1).sum::<u64>(), read.sums_by(|_| Ok(())).unwrap().total), {
                let total = found.iter().map(|f| f.size).sum();
                (total, total)
            });
            let symbolizer = Symbolizer::new(&read).unwrap().with_base(0x10_0000);
            for address in 0..0x1200 {
                let wanted = symbol_at(&found, address).map(|function| (function, address - function.address));
                assert_eq!(symbolizer.find(0x10_0000 + address), wanted);
                let next = || symbol_at(&found, address + 1).map(|function| (function, address + 1 - function.address));
                let of_call = wanted.map(|(function, offset)| (function, offset + 1)).or_else(next);
                assert_eq!(symbolizer.find_return(0x10_0001 + address), of_call);
            }
            let first = symbol_at(&found, 0).map(|function| (function, 0));
            assert_eq!((symbolizer.find(0xf_ffff), symbolizer.find_return(0x10_0000)), (None, first));
            let owned = owned_symbolizer(file, selection).with_base(0x10_0000).into_owned().unwrap();
            for address in 0xf_ffff..0x10_1200 {
                assert_eq!(owned.find(address), symbolizer.find(address));
                assert_eq!(owned.find_return(address), symbolizer.find_return(address));
            }
        }
        assert_eq!(read_section(Cursor::new(file), ".dep-v0").unwrap_err().to_string(), "no section of this name");
    }
    assert_eq!(read_section(Cursor::new(ELF32_BIG), ".text").unwrap(), section_bytes(ELF32_BIG, ".text").unwrap());
}

/// A symbolizer of tables that are gone.
fn owned_symbolizer(file: &[u8], selection: Selection<'_>) -> Symbolizer<'static> {
    let tables = Tables::read(Cursor::new(file), selection, SymbolTable::Symtab).unwrap();
    let owned = Symbolizer::new(&tables).unwrap().into_owned();
    owned.unwrap()
}

/// Of a section without bytes both calls say so.
#[test]
fn sections_without_bytes() {
    let mut file = ELF64_LITTLE.to_vec();
    // The type of section 1, `.text`: `SHT_NOBITS`.
    file[267 + 64 + 4] = 8;
    let elf = elf64::parse(&file, ByteOrder::LittleEndian).unwrap();
    let text = elf.section_with_name(".text").unwrap().unwrap();
    assert_eq!((elf.section_bytes(&text), section_bytes(&file, ".text")), (Err(Error::NoBytes), Err(Error::NoBytes)));
    let elf = elf64::parse(&ELF64_LITTLE[..80], ByteOrder::LittleEndian).unwrap();
    let whole = elf64::parse(ELF64_LITTLE, ByteOrder::LittleEndian).unwrap();
    let text = whole.section_with_name(".text").unwrap().unwrap();
    assert_eq!(elf.section_bytes(&text), Err(Error::PastEnd));
    assert_eq!(whole.section_bytes(&text), section_bytes(ELF64_LITTLE, ".text"));
    // The offsets of these sections are 0.
    let text = macho::parse(MACHO).unwrap().section_with_name("__TEXT", "__text").unwrap().unwrap();
    let of_macho = macho::parse(MACHO).unwrap().section_bytes(&text);
    assert_eq!((of_macho, section_bytes(MACHO, "__text")), (Err(Error::NoBytes), Err(Error::NoBytes)));
    let text = pe::parse(PE).unwrap().section_with_name(".text").unwrap().unwrap();
    let of_pe = pe::parse(PE).unwrap().section_bytes(&text);
    assert_eq!((of_pe, section_bytes(PE, ".text")), (Err(Error::NoBytes), Err(Error::NoBytes)));
}

/// A name that is selected may be gone before the tables are.
#[test]
fn tables_outlive_the_name_of_their_section() {
    for (file, _) in FILES {
        let of = |name: String| Tables::new(file, Selection::Section(&name), SymbolTable::Symtab).unwrap();
        let read = Tables::read(Cursor::new(file), Selection::Section(".text"), SymbolTable::Symtab).unwrap();
        let text = |tables: &Tables<'_>| written(|output| tables.list_to(output));
        assert_eq!(text(&of(String::from(".text"))), text(&read));
    }
}

#[test]
#[cfg(target_os = "linux")]
fn a_process_has_its_own_functions() {
    let process = Process::own().unwrap();
    let here = a_process_has_its_own_functions as *const () as usize as u64;
    let frame = process.find(here).unwrap();
    assert!(demangle::trimmed(frame.function.name).unwrap().ends_with("a_process_has_its_own_functions"), "{frame:?}");
    assert_eq!((frame.offset, process.find_return(here + 1).unwrap().function), (0, frame.function));
    assert!(std::env::current_exe().unwrap().ends_with(frame.path.rsplit('/').next().unwrap()));
    let maps = b"1000-2000 r-xp 0 0:0 0 /a\n2000-3000 r-xp 0 0:0 0 /b\n3000-4000 r-xp 0 0:0 0 /a\n4000-5000 r--p 0 0:0 0 /c\n\xff r-xp\n";
    let mut opened = Vec::new();
    let process = Process::of_maps(maps, |path| {
        opened.push(path.to_string());
        if path == "/b" { Err(ErrorKind::NotFound.into()) } else { Ok(Cursor::new(ELF64_LITTLE)) }
    });
    let process = process.unwrap();
    assert_eq!(opened, ["/a", "/b"]);
    let refused = process.refused().map(|(path, e)| (path, e.refusal().map(|e| e.kind()))).collect::<Vec<_>>();
    assert_eq!(refused.last(), Some(&("/b", None)));
    // The file is a stripped one's: of it the dynamic symbols are asked for.
    let mut stripped = ELF64_LITTLE.to_vec();
    stripped[267 + 128 + 4] = 11;
    assert!(Tables::new(&stripped, Selection::All, SymbolTable::Dynsym).is_ok());
    let process = Process::of_maps(b"1000-2000 r-xp 0 0:0 0 /a\n", |_| Ok(Cursor::new(&stripped[..]))).unwrap();
    assert_eq!(process.find(0x1000 + 0x1010).map(|it| (it.path, it.function.name, it.offset)), Some(("/a", "bad", 0)));
}

#[test]
fn tables_of_refused_files() {
    let missing = Error::Parse(ParseError::SectionIsMissing(".dynsym"));
    for (file, _) in FILES {
        for selection in [Selection::Section(".text"), Selection::All] {
            assert_eq!(Tables::new(file, selection, SymbolTable::Dynsym).unwrap_err(), missing);
        }
    }
    let truncated = Tables::read(Cursor::new(&PE[..90]), Selection::All, SymbolTable::Symtab).unwrap_err();
    assert_eq!(truncated.refusal(), Some(Error::Parse(ParseError::UnexpectedEof)));
    let truncated = io::Error::from(truncated);
    assert_eq!((truncated.kind(), truncated.to_string().as_str()), (ErrorKind::InvalidData, "unexpected end of file"));
    assert_eq!(Error::of_io(&truncated), Some(Error::Parse(ParseError::UnexpectedEof)));
    let tables = Tables::new(PE, Selection::All, SymbolTable::Symtab).unwrap();
    assert_eq!(tables.sums_by(|_| Err::<(), _>(Error::NoBytes)).unwrap_err(), Error::NoBytes);
}

/// The errors of all calls that take a file of any format.
fn errors_of_each_call(file: &[u8]) -> Vec<Error> {
    let of_io = |e: StreamError| e.refusal().unwrap();
    let mut errors = vec![
        functions(file, ".text").err(),
        sections(file).err(),
        section_bytes(file, ".text").err(),
        read_section(Cursor::new(file), ".text").err().map(of_io),
        list(file, ".text").err(),
        report(file, ".text").err(),
        load_address(file).err(),
        read_load_address(Cursor::new(file)).err().map(of_io),
        identity(file).err(),
        read_identity(Cursor::new(file)).err().map(of_io),
    ];
    for selection in [Selection::Section(".text"), Selection::All] {
        for table in [SymbolTable::Symtab, SymbolTable::Dynsym] {
            errors.push(Tables::new(file, selection, table).err());
            errors.push(Tables::read(Cursor::new(file), selection, table).err().map(of_io));
        }
    }
    errors.into_iter().map(|e| e.unwrap()).collect()
}

#[test]
fn a_file_has_its_identity() {
    // A header without section headers, a program header of notes, and a note of 8 bytes.
    let header = |program: [u8; 6]| {
        [b"\x7fELF\x02\x01\x01", &[0; 25][..], &[64, 0, 0, 0, 0, 0, 0, 0], &[0; 14], &program, &[0; 4]].concat()
    };
    let mut file = header([56, 0, 1, 0, 0, 0]);
    file.extend(
        [
            [4, 0, 0, 0, 4, 0, 0, 0],
            [120, 0, 0, 0, 0, 0, 0, 0],
            [0; 8],
            [0; 8],
            [24, 0, 0, 0, 0, 0, 0, 0],
            [0; 8],
            [4, 0, 0, 0, 0, 0, 0, 0],
        ]
        .concat(),
    );
    file.extend(b"\x04\0\0\0\x08\0\0\0\x03\0\0\0GNU\0\x01\x23\x45\x67\x89\xab\xcd\xef");
    let found = identity(&file).unwrap().unwrap();
    assert_eq!((found.kind(), found.to_string().as_str()), (IdentityKind::BuildId, "0123456789abcdef"));
    assert_eq!(found.bytes(), [1, 0x23, 0x45, 0x67, 0x89, 0xab, 0xcd, 0xef]);
    assert_eq!(read_identity(Cursor::new(&file)).unwrap(), Some(found));
    file.pop();
    assert_eq!(identity(&file), Err(Error::Parse(ParseError::UnexpectedEof)));
    for file in [ELF32_LITTLE, ELF32_BIG, ELF64_LITTLE, ELF64_BIG] {
        assert_eq!(identity(file), Ok(None));
    }
}

#[test]
fn a_file_that_no_reader_reads_is_refused_with_what_it_is() {
    let first = |bytes: &[u8]| [bytes, &[0; 32]].concat();
    let text = [b'a'; 512];
    let files = [
        (first(b"\xca\xfe\xba\xbe\0\0\0\x02"), "a universal Mach-O file"),
        (first(b"\xca\xfe\xba\xbf\0\0\0\x02"), "a universal Mach-O file"),
        (first(b"\xca\xfe\xba\xbe\0\0\0\x34"), "a Java class file;"),
        (first(b"\xfe\xed\xfa\xce"), "a Mach-O file of 32 bits;"),
        (first(b"\xce\xfa\xed\xfe"), "a Mach-O file of 32 bits;"),
        (first(b"\xfe\xed\xfa\xcf"), "a big-endian Mach-O file;"),
        (first(b"!<arch>\n"), "an archive;"),
        (first(b"!<thin>\n"), "a thin archive;"),
        (first(b"\x64\x86"), "a COFF object file;"),
        (first(b"Microsoft C/C++ MSF 7.00"), "a PDB file;"),
        (first(b"\0asm"), "a WebAssembly module;"),
        (first(b"BC\xc0\xde"), "LLVM bitcode;"),
        (b"#!/bin/sh".to_vec(), "a script"),
        // Of a text only these bytes are looked at.
        ([&text[..], b"\0"].concat(), "a text;"),
        ([&text[1..], b"\0"].concat(), "unknown file format"),
        (Vec::new(), "an empty file"),
        (vec![0; 64], "unknown file format"),
    ];
    for (file, words) in files {
        let errors = errors_of_each_call(&file);
        assert!(errors.iter().all(|e| *e == errors[0]), "{words} {errors:?}");
        assert_eq!(errors[0].kind(), crate::ErrorKind::UnknownFormat);
        // What a command's user could do isn't said.
        assert_eq!(errors[0].to_string(), words.trim_end_matches(';'));
        assert_eq!(errors[0] == Error::UnknownFormat(None), words == "unknown file format");
        // The original's calls answer as they did.
        let starts = [b"\xca\xfe\xba\xbe", b"\xfe\xed\xfa\xce", b"\xce\xfa\xed\xfe", b"\xfe\xed\xfa\xcf"];
        let is_macho = starts.iter().any(|start| file.starts_with(&start[..]));
        assert_eq!(detect_format(&file), if is_macho { Format::Macho } else { Format::Unknown });
        assert_eq!(macho::parse(&file).is_ok(), file.len() >= 28);
    }
}

/// What is refused is refused at once: for each beginning of a file, and for files with other numbers.
#[test]
fn tables_are_refused_at_one_time() {
    let mut kinds = HashSet::new();
    let mut both = |file: &[u8], section| {
        for selection in [Selection::Section(section), Selection::All] {
            for table in [SymbolTable::Symtab, SymbolTable::Dynsym] {
                let tables = Tables::new(file, selection, table);
                let read = Tables::read(Cursor::new(file), selection, table);
                kinds.extend(tables.as_ref().err().map(Error::kind));
                let of_io = |e: &StreamError| e.refusal().unwrap();
                assert_eq!(tables.as_ref().err().copied(), read.as_ref().err().map(of_io));
                for tables in tables.into_iter().chain(read) {
                    assert!(tables.functions().is_ok());
                    tables.list_to(io::sink()).unwrap();
                    Symbolizer::new(&tables).unwrap();
                }
            }
        }
    };
    for (file, _) in FILES {
        both(file, ".none");
        for place in 0..file.len() {
            both(&file[..place], ".text");
            let mut other = file.to_vec();
            other[place] ^= 0x80;
            both(&other, ".text");
        }
    }
    use crate::ErrorKind::*;
    assert_eq!(kinds, HashSet::from([UnknownFormat, NoSymbolTable, NoSection, Invalid]));
}

#[test]
fn iterators_stay_at_their_end_and_within_their_bounds() {
    fn stays<T>(mut items: impl FusedIterator<Item = T> + Clone) {
        loop {
            let ((least, most), count) = (items.size_hint(), items.clone().count());
            assert!(least <= count && most.map_or(true, |most| count <= most));
            if items.next().is_none() {
                break;
            }
        }
        assert!((0..9).all(|_| items.next().is_none()));
    }
    for (file, _) in FILES {
        stays(functions(file, ".text").unwrap().0);
        // The last item of a truncated table is an error.
        for len in [100, file.len() - 30, file.len()] {
            stays(sections(&file[..len]).unwrap());
        }
        let tables = Tables::new(file, Selection::All, SymbolTable::Symtab).unwrap();
        stays(tables.all_functions().unwrap().unwrap());
    }
    for len in [70, ELF64_LITTLE.len() - 30, ELF64_LITTLE.len()] {
        stays(elf64::parse(&ELF64_LITTLE[..len], ByteOrder::LittleEndian).unwrap().sections());
    }
    let file = elf64::parse(ELF64_LITTLE, ByteOrder::LittleEndian).unwrap();
    stays(file.functions(".text").unwrap().0);
    // A table of no headers that begins past the file.
    let mut header = [0; 64];
    header[40] = 64;
    let file = elf64::parse(&header, ByteOrder::LittleEndian).unwrap();
    assert_eq!((file.sections().size_hint(), file.sections().count()), ((0, Some(1)), 1));
    for len in [200, PE.len()] {
        stays(pe::parse(&PE[..len]).unwrap().sections());
    }
}

/// That each public type has the traits of its kind.
#[allow(dead_code)]
fn traits() {
    fn small<T: Copy + Eq + Hash + Debug + Send + Sync>() {}
    fn value<T: Clone + Eq + Hash + Debug + Send + Sync>() {}
    fn error<T: std::error::Error + Send + Sync + 'static>() {}
    fn shown<T: Debug + Send + Sync>() {}
    fn reader<T: Clone + Debug + Send + Sync>() {}
    fn items<T: FusedIterator + Clone + Debug + Send + Sync>() {}
    small::<(ByteOrder, Format, SymbolTable, Selection<'_>, Form, Kind, demangle::Demangle<'_>)>();
    small::<(FunctionSymbol<'_>, SectionFunction<'_>, Section<'_>, SectionType, LoadAddress, CodeSegment, Frame<'_>)>();
    small::<(elf32::Section, elf64::Section, macho::Section<'_>, pe::Section<'_>)>();
    small::<(elf32::Elf32Header, elf64::Elf64Header, macho::MachoHeader, pe::PeHeader)>();
    small::<(Figures, Layout<'_>, Growth, Grouping, Key, Naming, Order, Shown)>();
    small::<(ParseError, Error, Foreign, UnexpectedEof, OutOfMemory)>();
    let _: [fn(); 4] = [error::<ParseError>, error::<Error>, error::<UnexpectedEof>, error::<OutOfMemory>];
    error::<StreamError>();
    value::<(SymbolData, SymbolName, Sums<String>)>();
    reader::<(elf32::Elf32<'_>, elf64::Elf64<'_>, macho::Macho<'_>, pe::Pe<'_>)>();
    shown::<(Tables<'_>, Symbolizer<'_>, Process, Demangler)>();
    fn shared<T: Send + Sync + 'static>() {}
    shared::<(Tables<'static>, Symbolizer<'static>, Process)>();
    let _: [fn(); 3] = [items::<Functions<'_>>, items::<Sections<'_>>, items::<AllFunctions<'_>>];
    let _: [fn(); 2] = [items::<elf32::Functions<'_>>, items::<elf32::Sections<'_>>];
    let _: [fn(); 2] = [items::<elf64::Functions<'_>>, items::<elf64::Sections<'_>>];
    let _: [fn(); 2] = [items::<macho::Sections<'_>>, items::<pe::Sections<'_>>];
}

#[test]
fn values_are_compared_by_their_fields() {
    let function = FunctionSymbol { name: "a", address: 1, size: 2 };
    let other = [
        FunctionSymbol { name: "b", ..function },
        FunctionSymbol { address: 2, ..function },
        FunctionSymbol { size: 1, ..function },
    ];
    let all: HashSet<_> = other.into_iter().chain([function, function]).collect();
    assert_eq!(all.len(), 4);
    let of = |section| SectionFunction { section, info: 0x12, version: 0, function };
    assert_eq!(HashSet::from([of(1), of(2), of(1)]).len(), 2);
    let read = |file| sections(file).unwrap().map(Result::unwrap).collect::<HashSet<_>>();
    assert_eq!(read(ELF64_LITTLE), read(ELF64_BIG));
    assert_ne!(read(ELF64_LITTLE), read(ELF32_LITTLE));
    let format = detect_format(ELF64_BIG);
    let same = format;
    assert_eq!(HashSet::from([format, same]), HashSet::from([Format::Elf64 { byte_order: ByteOrder::BigEndian }]));
    let file = elf64::parse(ELF64_LITTLE, ByteOrder::LittleEndian).unwrap();
    let read = |index| file.section_with_index(index).unwrap().unwrap();
    assert_eq!(HashSet::from([read(1), read(2), read(1)]).len(), 2);
    assert!(file.clone().sections().eq(file.sections()) && format!("{:?}", file.clone()) == format!("{file:?}"));
    assert_eq!((read(2).index(), read(2).offset(), read(2).size()), (2, 96, 120));
    let text = macho::parse(MACHO).unwrap().section_with_name("__TEXT", "__text").unwrap().unwrap();
    assert_eq!((text.offset(), text.size()), (0, 256));
    let text = pe::parse(PE).unwrap().section_with_name(".text").unwrap().unwrap();
    assert_eq!((text.index(), text.offset(), text.size()), (0, 0, 256));
}

// As rustc-demangle prints its `Demangle`.
#[test]
fn a_recognized_name_is_printed() {
    let legacy = demangle::demangle("_ZN3foo3bar17h05af221e174051e9E");
    assert_eq!(legacy.to_string(), "foo::bar::h05af221e174051e9");
    assert_eq!(format!("{legacy:#}|{legacy:#10}|{:<6}|", demangle::demangle("main")), "foo::bar|foo::bar  |main  |");
    assert_eq!(format!("{0} {0:#}", demangle::demangle("_RNvC6_123foo3bar")), "123foo[0]::bar 123foo::bar");
    assert_eq!(
        format!("{0} {0:#}|{0:<16}|", SymbolName::demangle("_RNvC6_123foo3bar")),
        "123foo[0]::bar 123foo::bar|123foo[0]::bar  |"
    );
}

/// A line of at most 64 bytes, in no memory of its own.
struct Line([u8; 64], usize);

impl std::fmt::Write for Line {
    fn write_str(&mut self, text: &str) -> std::fmt::Result {
        let room = self.0.get_mut(self.1..self.1 + text.len()).ok_or(std::fmt::Error)?;
        room.copy_from_slice(text.as_bytes());
        self.1 += text.len();
        Ok(())
    }
}

#[test]
fn a_name_is_printed_as_it_is_stored_where_memory_has_run_out() {
    for name in ["_ZN3foo3bar17h05af221e174051e9E", "_RNvC6_123foo3bar", "main"] {
        let read = SymbolName::demangle(name);
        for (is_trimmed, wanted) in [(false, &*read.complete), (true, &*read.trimmed)] {
            for number in 1.. {
                let mut line = Line([0; 64], 0);
                let mut print = || {
                    use std::fmt::Write;
                    let name = demangle::demangle(name);
                    if is_trimmed { write!(line, "{name:#}") } else { write!(line, "{name}") }
                };
                // By a thread that has printed none, and keeps no memory.
                let (printed, was_refused) =
                    std::thread::scope(|threads| threads.spawn(|| refusing(number, &mut print)).join().unwrap());
                assert_eq!(printed, Ok(()));
                let line = std::str::from_utf8(&line.0[..line.1]).unwrap();
                assert_eq!(line, if was_refused { name } else { wanted });
                if !was_refused {
                    assert!(number > 1, "nothing was allocated");
                    break;
                }
            }
        }
        let mut short = Line([0; 64], 60);
        assert!(
            name.len() < 5
                || std::fmt::Write::write_fmt(&mut short, format_args!("{}", demangle::demangle(name))).is_err()
        );
    }
}

/// A writer that prints a name where it is given one.
struct Nested(String);

impl std::fmt::Write for Nested {
    fn write_str(&mut self, text: &str) -> std::fmt::Result {
        self.0 += &format!("{text}, {:#}", demangle::demangle("_RNvC1a1b"));
        Ok(())
    }
}

#[test]
fn a_name_is_printed_while_another_one_is() {
    let mut nested = Nested(String::new());
    std::fmt::Write::write_fmt(&mut nested, format_args!("{:#}", demangle::demangle("_ZN3foo3barE"))).unwrap();
    assert_eq!(nested.0, "foo, a::b");
}

#[test]
fn a_text_past_the_bound_is_not_printed() {
    let legacy = |len: usize| format!("_ZN{len}{}3fooE", "a".repeat(len));
    let long = legacy(demangle::MAX_PRINTED);
    assert_eq!(format!("{:#}", demangle::demangle(&long)).len(), demangle::MAX_PRINTED);
    assert_eq!(demangle::demangle(&long).to_string(), long);
    let longer = legacy(demangle::MAX_PRINTED + 1);
    assert_eq!(format!("{:#}", demangle::demangle(&longer)), longer);
    // A tuple of the tuple before twice, ten times.
    let (mut v0, mut at) = (format!("_RIC1aNtC1a2000{}", "b".repeat(2000)), 4);
    for _ in 0..10 {
        let next = v0.len() - 2;
        let digits = |n: usize| {
            let digit = |n: usize| char::from(b"0123456789abcdefghijklmnopqrstuvwxyzABCDEFGHIJKLMNOPQRSTUVWXYZ"[n]);
            [n / 3844, n / 62 % 62, n % 62].map(digit).into_iter().collect::<String>()
        };
        v0 += &format!("TB{0}_B{0}_E", digits(at - 1));
        at = next;
    }
    v0.push('E');
    assert!(trimmed(&v0).unwrap().len() > demangle::MAX_PRINTED);
    assert_eq!(demangle::demangle(&v0).to_string(), v0);
}

#[test]
fn debug_output_is_that_of_the_original() {
    let file = elf64::parse(ELF64_LITTLE, ByteOrder::LittleEndian).unwrap();
    assert_eq!(
        format!("{:?}", file.header()),
        "Elf64Header { elf_type: 1, machine: 0, version: 1, entry: 0, phoff: 0, shoff: 267, flags: 0, ehsize: 64, \
         phentsize: 0, phnum: 0, shentsize: 64, shnum: 5, shstrndx: 4 }"
    );
    assert_eq!(
        format!("{:?}", file.section_with_name(".symtab").unwrap().unwrap()),
        "Section { index: 2, name_offset: 7, kind: 2, link: 3, offset: 96, size: 120, entry_size: 24 }"
    );
    let file = elf32::parse(ELF32_BIG, ByteOrder::BigEndian).unwrap();
    assert_eq!(
        format!("{:?}", file.section_with_name(".symtab").unwrap().unwrap()),
        "Section { index: 2, name_offset: 7, kind: 2, link: 3, offset: 84, size: 80, entry_size: 16 }"
    );
    let file = macho::parse(MACHO).unwrap();
    assert_eq!(
        format!("{:?}", file.header()),
        "MachoHeader { cputype: 0, cpusubtype: 0, filetype: 0, ncmds: 2, sizeofcmds: 0, flags: 0 }"
    );
    assert_eq!(
        format!("{:?}", file.section_with_name("__TEXT", "__text").unwrap().unwrap()),
        "Section { segment_name: \"__TEXT\", section_name: \"__text\", address: 4096, offset: 0, size: 256 }"
    );
    let file = pe::parse(PE).unwrap();
    assert_eq!(
        format!("{:?}", file.header()),
        "PeHeader { machine: 0, number_of_sections: 1, time_date_stamp: 0, pointer_to_symbol_table: 128, \
         number_of_symbols: 5, size_of_optional_header: 0, characteristics: 0 }"
    );
    assert_eq!(
        format!("{:?}", file.find_section(|_| true).unwrap().unwrap()),
        "Section { name: \".text\", virtual_size: 0, size_of_raw_data: 256, pointer_to_raw_data: 0, index: 0 }"
    );
}

/// No two bytes of these headers are the same.
#[test]
fn headers_are_read_whole() {
    let mut file = MACHO.to_vec();
    (1..=24).zip(&mut file[4..28]).for_each(|(number, byte)| *byte = number);
    let header = macho::parse(&file).unwrap().header();
    assert_eq!((header.cputype, header.cpusubtype, header.filetype), (0x0403_0201, 0x0807_0605, 0x0c0b_0a09));
    assert_eq!((header.ncmds, header.sizeofcmds, header.flags), (0x100f_0e0d, 0x1413_1211, 0x1817_1615));
    assert_eq!(format!("{header:?}"), format!("{:?}", erased::binfarce::macho::parse(&file).unwrap().header()));

    let mut file = PE.to_vec();
    let start = file[60] as usize + 4;
    (1..=20).zip(&mut file[start..start + 20]).for_each(|(number, byte)| *byte = number);
    let header = pe::parse(&file).unwrap().header();
    assert_eq!((header.machine, header.number_of_sections, header.time_date_stamp), (0x0201, 0x0403, 0x0807_0605));
    assert_eq!((header.pointer_to_symbol_table, header.number_of_symbols), (0x0c0b_0a09, 0x100f_0e0d));
    assert_eq!((header.size_of_optional_header, header.characteristics), (0x1211, 0x1413));
    assert_eq!(format!("{header:?}"), format!("{:?}", erased::binfarce::pe::parse(&file).unwrap().header()));
}

/// Code written for the original matches its five errors without a wildcard.
#[test]
fn errors_are_those_of_the_original() {
    let words = |e| match e {
        ParseError::SymbolsSectionIsMissing => String::from("none"),
        ParseError::SectionIsMissing(name) => name.into(),
        ParseError::UnexpectedSectionType { expected, actual } => format!("{expected} {actual}"),
        ParseError::MalformedInput => "malformed".into(),
        ParseError::UnexpectedEof => "eof".into(),
    };
    let mut file = ELF64_LITTLE.to_vec();
    assert_eq!(words(elf64::parse(&file, ByteOrder::LittleEndian).unwrap().symbols(".bss").err().unwrap()), "none");
    // The type of `.symtab`, in the third section header.
    file[267 + 2 * 64 + 4] = 1;
    assert_eq!(words(symbols(&file).err().unwrap()), ".symtab");
    assert_eq!(functions(&file, ".text").unwrap_err(), Error::Parse(ParseError::SectionIsMissing(".symtab")));
    assert_eq!(ParseError::from(UnexpectedEof {}).to_string(), "unexpected end of file");
    let e = io::Error::from(Error::UnknownFormat(None));
    assert_eq!((e.kind(), e.to_string().as_str()), (ErrorKind::InvalidData, "unknown file format"));
    assert_eq!(Error::of_io(&e), Some(Error::UnknownFormat(None)));
    let e = io::Error::from(Error::OutOfMemory);
    assert_eq!((e.kind(), Error::of_io(&e)), (ErrorKind::OutOfMemory, Some(Error::OutOfMemory)));
    assert_eq!(Error::of_io(&ErrorKind::NotFound.into()), None);
}

/// Asks with each allocation refused in turn, until none is. Whether one is refused, that is what the call says.
fn refuses_each<T>(call: impl Fn() -> Result<T, Error>) {
    for number in 1.. {
        let (answer, refused) = refusing(number, &call);
        match answer {
            Ok(_) if !refused => return assert!(number > 1, "nothing was allocated"),
            Ok(_) => (),
            Err(e) => assert!(refused && e == Error::OutOfMemory, "{e}, allocation {number}"),
        }
    }
}

#[test]
fn a_failed_allocation_is_an_error() {
    const NAME: &str = "_RNvC6_123foo3bar";
    refuses_each(|| Ok(SymbolName::try_demangle(NAME)?));
    refuses_each(|| Ok(Demangler::new().crate_of(NAME)?));
    refuses_each(|| Ok(trimmed(NAME)?));
    refuses_each(|| Ok(filter(NAME, Form::Trimmed)?));
    for (file, _) in FILES {
        refuses_each(|| list(file, ".text"));
        refuses_each(|| report(file, ".text"));
    }
    refuses_each(|| Ok(Demangler::new().push_crate(&mut String::new(), NAME)?));
    let refused = |e: StreamError| e.refusal().unwrap_or_else(|| panic!("{e}"));
    refuses_each(|| read_section(Cursor::new(ELF32_BIG), ".text").map_err(refused));
    for (file, _) in FILES {
        for selection in [Selection::Section(".text"), Selection::All] {
            let read = || Tables::read(Cursor::new(file), selection, SymbolTable::Symtab).map_err(refused);
            refuses_each(|| Symbolizer::new(&read()?).and_then(|it| Ok(it.into_owned()?)));
            refuses_each(|| read()?.sums_by_key(Key::Crate));
            refuses_each(|| read()?.sums_by(|function| Ok(function.size)));
            refuses_each(|| read()?.map_to("file", Key::Crate, io::sink()).map_err(refused));
        }
    }
    refuses_each(|| elf64::parse(ELF64_LITTLE, ByteOrder::LittleEndian)?.try_symbols(".text"));
    refuses_each(|| macho::parse(MACHO)?.functions());
    refuses_each(|| macho::parse(MACHO)?.try_symbols());
    refuses_each(|| pe::parse(PE)?.functions());
    refuses_each(|| pe::parse(PE)?.try_symbols());
}

#[test]
fn a_text_stays_where_an_allocation_fails() {
    type Push = fn(&mut Demangler, &mut String, &str) -> Result<(), OutOfMemory>;
    let push_crate: Push = |demangler, text, name| demangler.push_crate(text, name).map(|_| ());
    for name in ["_RNvC6_123foo3bar", "_ZN3foo3bar17h05af221e174051e9E"] {
        for push in [Demangler::push_trimmed, Demangler::push_complete, push_crate] {
            for before in ["", "at "] {
                for number in 1.. {
                    let mut text = String::from(before);
                    let (pushed, was_refused) = refusing(number, || push(&mut Demangler::new(), &mut text, name));
                    if !was_refused {
                        assert!(pushed.is_ok() && text.starts_with(before) && text != before);
                        break;
                    }
                    assert_eq!((pushed, text.as_str()), (Err(OutOfMemory), before));
                }
            }
        }
    }
}

#[test]
fn texts_are_appended() {
    let (mut text, mut demangler) = (String::from("-"), Demangler::new());
    for name in ["_RNvC6_123foo3bar", "_ZN3foo3bar17h05af221e174051e9E", "main"] {
        demangler.push_trimmed(&mut text, name).unwrap();
        text.push('|');
        demangler.push_complete(&mut text, name).unwrap();
        text.push('|');
        let has_crate = demangler.push_crate(&mut text, name).unwrap();
        assert_eq!(has_crate, demangle::demangle(name).kind() != Kind::Unknown);
        text.push('\n');
    }
    assert_eq!(text, "-123foo::bar|123foo[0]::bar|123foo\nfoo::bar|foo::bar::h05af221e174051e9|foo\nmain|main|\n");
}

/// A stream that is interrupted, and then gives or takes its bytes and fails.
struct Broken {
    calls: usize,
}

impl Broken {
    fn call(&mut self) -> io::Result<usize> {
        self.calls += 1;
        match self.calls {
            1 => Err(ErrorKind::Interrupted.into()),
            2 => Ok(1),
            _ => Err(io::Error::other("cable pulled")),
        }
    }
}

impl Read for Broken {
    fn read(&mut self, buffer: &mut [u8]) -> io::Result<usize> {
        buffer[0] = b'x';
        self.call()
    }
}

impl Write for Broken {
    fn write(&mut self, _: &[u8]) -> io::Result<usize> {
        self.call()
    }

    fn flush(&mut self) -> io::Result<()> {
        Ok(())
    }
}

/// A stream that counts a byte too many.
struct Counting;

impl Read for Counting {
    fn read(&mut self, buffer: &mut [u8]) -> io::Result<usize> {
        Ok(buffer.len() + 1)
    }
}

impl Write for Counting {
    fn write(&mut self, bytes: &[u8]) -> io::Result<usize> {
        Ok(bytes.len() + 1)
    }

    fn flush(&mut self) -> io::Result<()> {
        Ok(())
    }
}

impl Seek for Broken {
    fn seek(&mut self, _: SeekFrom) -> io::Result<u64> {
        Ok(64)
    }
}

impl Seek for Counting {
    fn seek(&mut self, _: SeekFrom) -> io::Result<u64> {
        Ok(64)
    }
}

/// A file that becomes shorter when its length was asked for three times, and how often it was.
struct Shrinking(Cursor<Vec<u8>>, usize);

impl Seek for Shrinking {
    fn seek(&mut self, to: SeekFrom) -> io::Result<u64> {
        let place = self.0.seek(to);
        self.1 += usize::from(to == SeekFrom::End(0));
        if self.1 == 3 {
            self.0.get_mut().truncate(99);
        }
        place
    }
}

impl Read for Shrinking {
    fn read(&mut self, buffer: &mut [u8]) -> io::Result<usize> {
        self.0.read(buffer)
    }
}

#[test]
fn tables_give_the_error_of_their_stream() {
    let read = |calls| Tables::read(Broken { calls }, Selection::All, SymbolTable::Symtab).unwrap_err().to_string();
    assert_eq!(read(0), "cable pulled");
    assert_eq!(io::Error::from(read_section(Counting, ".text").unwrap_err()).kind(), ErrorKind::InvalidData);
    let shrinking = Shrinking(Cursor::new(ELF64_LITTLE.to_vec()), 0);
    assert_eq!(io::Error::from(read_section(shrinking, ".text").unwrap_err()).kind(), ErrorKind::UnexpectedEof);
    let tables = Tables::new(ELF64_LITTLE, Selection::All, SymbolTable::Symtab).unwrap();
    assert_eq!(tables.list_to(Broken { calls: 0 }).unwrap_err().to_string(), "cable pulled");
    assert_eq!(io::Error::from(tables.report_to(&mut [0; 1][..]).unwrap_err()).kind(), ErrorKind::WriteZero);
    assert_eq!(
        io::Error::from(tables.map_to("file", Key::Crate, Counting).unwrap_err()).kind(),
        ErrorKind::InvalidData
    );
}

#[test]
fn a_count_past_the_buffer_is_an_error() {
    let read = filter_stream(Counting, io::sink(), Form::Trimmed);
    assert_eq!(read.unwrap_err().kind(), ErrorKind::InvalidData);
    let written = filter_stream(&b"two bytes"[..], Counting, Form::Trimmed);
    assert_eq!(written.unwrap_err().kind(), ErrorKind::InvalidData);
}

#[test]
fn a_filtered_stream_ends_with_the_error_of_its_stream() {
    let mut output = Vec::new();
    let ended = filter_stream(Broken { calls: 0 }, &mut output, Form::Trimmed);
    assert_eq!(ended.unwrap_err().to_string(), "cable pulled");
    assert_eq!(output, b"x");
    let ended = filter_stream(&b"two bytes"[..], Broken { calls: 0 }, Form::Trimmed);
    assert_eq!(ended.unwrap_err().to_string(), "cable pulled");
    let ended = filter_stream(&b"two bytes"[..], &mut [0; 1][..], Form::Trimmed);
    assert_eq!(ended.unwrap_err().kind(), ErrorKind::WriteZero);
    let (ended, _) = refusing(1, || filter_stream(&b"two bytes"[..], io::sink(), Form::Trimmed));
    assert_eq!(ended.unwrap_err().kind(), ErrorKind::OutOfMemory);
}
