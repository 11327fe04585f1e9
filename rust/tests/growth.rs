//! What may grow without breaking callers: the enums here can get values, and the structs are made by their calls alone. The doc
//! tests of `rust/src/refused.rs` have what mustn't compile.
#![allow(clippy::match_like_matches_macro)]
// Of an enum that can't grow the last arm would be unreachable.
#![deny(unreachable_patterns)]

use binfarce::demangle::Kind;
use binfarce::figures::{Figures, Grouping, Key, Layout, Naming, Order, Shown};
use binfarce::{ByteOrder, Error, ErrorKind, Form, Format, Selection, SymbolTable};

#[test]
fn enums_may_grow() {
    assert!(match Form::Trimmed {
        Form::Trimmed | Form::Complete => true,
        _ => false,
    });
    assert!(match ErrorKind::Invalid {
        ErrorKind::UnknownFormat | ErrorKind::NoSymbolTable | ErrorKind::NoSection | ErrorKind::NoBytes => false,
        ErrorKind::Invalid | ErrorKind::TooLarge | ErrorKind::OutOfMemory => true,
        _ => false,
    });
    assert!(match Selection::All {
        Selection::Section(_) | Selection::All => true,
        _ => false,
    });
    assert!(match SymbolTable::Symtab {
        SymbolTable::Symtab | SymbolTable::Dynsym => true,
        _ => false,
    });
    assert!(match Key::Crate {
        Key::Crate | Key::Function | Key::Generic | Key::Section => true,
        _ => false,
    });
    assert!(match Order::Size {
        Order::Address | Order::Size | Order::Name => true,
        _ => false,
    });
    assert!(match Naming::Stored {
        Naming::Trimmed | Naming::Complete | Naming::Stored => true,
        _ => false,
    });
    assert!(match Layout::Lines {
        Layout::Lines | Layout::Objects { .. } => true,
        _ => false,
    });
    assert!(match Error::TooLarge {
        Error::UnknownFormat(_) | Error::Parse(_) | Error::NoSection | Error::NoBytes => false,
        Error::PastEnd | Error::TooLarge | Error::OutOfMemory => true,
        _ => false,
    });
}

#[test]
fn options_are_made_by_calls() {
    let shown = Shown::new().with_order(Order::Name).with_first(2).with_naming(Naming::Complete).without_total();
    let all = (shown.order, shown.first, shown.naming, shown.has_total);
    assert_eq!(all, (Some(Order::Name), Some(2), Naming::Complete, false));
    let shown = Shown::default();
    assert_eq!((shown.order, shown.first, shown.naming, shown.has_total), (None, None, Naming::Trimmed, true));
    let figures = Figures::by(Key::Generic).with_std_joined().with_first(3).with_percent();
    assert_eq!((figures.first, figures.has_percent), (Some(3), true));
    assert_eq!(figures.grouping, Grouping::by(Key::Generic).with_std_joined());
    let mut figures = Figures::by(Grouping::by(Key::Section));
    assert_eq!((figures.grouping.key, figures.grouping.joins_std), (Key::Section, false));
    assert_eq!((figures.first, figures.has_percent), (None, false));
    figures.first = Some(1);
    assert_eq!(figures, Figures::by(Key::Section).with_first(1));
}

#[test]
fn values_have_words() {
    assert_eq!([Kind::Unknown, Kind::Legacy, Kind::V0].map(|kind| kind.to_string()), ["unknown", "legacy", "v0"]);
    assert_eq!(format!("{:>8}|{:<5}|", Kind::Legacy, Format::PE), "  legacy|PE   |");
    let (little, big) = (ByteOrder::LittleEndian, ByteOrder::BigEndian);
    let elf = [Format::Elf32 { byte_order: little }, Format::Elf64 { byte_order: big }];
    assert_eq!(elf.map(|format| format.to_string()), ["32-bit little-endian ELF", "64-bit big-endian ELF"]);
    let elf = [Format::Elf32 { byte_order: big }, Format::Elf64 { byte_order: little }];
    assert_eq!(elf.map(|format| format.to_string()), ["32-bit big-endian ELF", "64-bit little-endian ELF"]);
    assert_eq!([Format::Macho, Format::Unknown].map(|format| format.to_string()), ["Mach-O", "unknown"]);
}
