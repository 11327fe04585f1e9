//! A small reader of executables: function symbols, sections and headers of ELF, Mach-O and PE files, and readable names of
//! Rust symbols.
//!
//! The public paths and signatures of the Rust crate `binfarce` are here, but for its module `ar`, and more. The code below
//! them is plain Rust made from sources in Rattle by erasing their contracts. Those sources are proved, for all bytes; that
//! erasing keeps what they do is tested. This crate is safe Rust without dependencies.
//!
//! - Names: [`demangle`], and [`filter()`] and [`filter_stream`](crate#functions) for those in a text.
//! - A file in memory, of any format: [`functions`], [`sections`], [`section_bytes`]; of one format: [`elf32`], [`elf64`],
//!   [`macho`], [`pe`].
//! - Function symbols of all sections, dynamic ones, sums of their sizes, and files that are read at offsets: [`Tables`] and
//!   [`read_section`](crate#functions).
//! - From which build a file is: [`identity`].
//! - The function at an address: [`Symbolizer`], and [`Process`](crate#structs) for all files of a running program.
//!
//! # Examples
//!
//! The functions of a program, whatever its format:
//!
//! ```
//! # fn main() -> Result<(), Box<dyn std::error::Error>> {
//! # let path = concat!(env!("CARGO_MANIFEST_DIR"), "/samples/elf64-little.bin");
//! let file = std::fs::read(path)?;
//! let (functions, text_size) = binfarce::functions(&file, ".text")?;
//! for function in functions {
//!     let name = binfarce::demangle::trimmed(function.name)?;
//!     println!("{:016x} {:>10} {name}", function.address, function.size);
//! }
//! println!("text {text_size}");
//! # Ok(())
//! # }
//! ```

// As in Cargo.toml, which says it to Cargo from 1.74 on.
#![forbid(unsafe_code)]
#![cfg_attr(not(feature = "std"), no_std)]
#![warn(missing_docs)]

#[cfg(not(any(target_pointer_width = "64", target_pointer_width = "32")))]
compile_error!("binfarce needs a machine of 32 or 64 bits");

#[cfg(all(test, not(feature = "std")))]
compile_error!("the tests need the feature `std`");

extern crate alloc;

/// Implements `Debug` for values that show their names alone.
macro_rules! debug_by_name {
    ($($Value:ident),*) => {$(
        impl core::fmt::Debug for $Value<'_> {
            fn fmt(&self, f: &mut core::fmt::Formatter<'_>) -> core::fmt::Result {
                f.debug_struct(stringify!($Value)).finish_non_exhaustive()
            }
        }
    )*};
}

/// Implements what the iterators over parts of a file have beside `next`: after the end they stay there.
macro_rules! of_iterators {
    ($($Iterator:ident),*) => {
        debug_by_name!($($Iterator),*);
        $(impl core::iter::FusedIterator for $Iterator<'_> {})*
    };
}

/// Implements the traits of values that are compared by all that they hold; behind `else` only those that a `PartialEq` lacks.
macro_rules! of_values {
    ($($Value:ty: |$it:ident| $key:expr;)* $(else $($Other:ty: |$that:ident| $of:expr;)*)?) => {
        $(
            impl PartialEq for $Value {
                fn eq(&self, other: &Self) -> bool {
                    let key = |$it: &Self| $key;
                    key(self) == key(other)
                }
            }

            of_values! { else $Value: |$it| $key; }
        )*
        $($(
            impl Eq for $Other {}

            impl core::hash::Hash for $Other {
                fn hash<H: core::hash::Hasher>(&self, state: &mut H) {
                    let $that = self;
                    $of.hash(state);
                }
            }
        )*)?
    };
}

of_values! {
    FunctionSymbol<'_>: |it| (it.name, it.address, it.size);
    SectionFunction<'_>: |it| (it.section, it.info, it.version, it.function);
    else
    CodeSegment: |it| (it.address, it.offset, it.size, it.memory_size, it.align);
    LoadAddress: |it| (it.address, it.code);
    foreign::Foreign: |it| core::mem::discriminant(it);
    figures::Key: |it| core::mem::discriminant(it);
    figures::Naming: |it| core::mem::discriminant(it);
    figures::Order: |it| core::mem::discriminant(it);
}

impl Clone for Format {
    fn clone(&self) -> Self {
        *self
    }
}

impl Copy for Format {}

mod any;
pub mod demangle;
mod elf;
pub mod elf32;
pub mod elf64;
#[allow(clippy::all, rustdoc::private_intra_doc_links)]
// Of a method that a type has twice, Rust may take another one than the proved sources.
#[deny(clippy::same_name_method)]
// As for `if_let_rescope` in Cargo.toml. In std for 32 bits `io::Error` counts too, whose order of drops doesn't matter.
#[cfg_attr(target_pointer_width = "64", deny(tail_expr_drop_order))]
#[rustfmt::skip]
mod erased;
mod error;
pub mod figures;
mod filter;
use erased::binfarce_foreign as foreign;
mod identity;
pub mod macho;
pub mod pe;
#[cfg(feature = "std")]
mod process;
#[cfg(doctest)]
mod refused;
// Each program and library takes a part of it.
#[allow(dead_code, unused_imports)]
mod shim;
#[cfg(feature = "std")]
mod streams;
mod symbolizer;
mod tables;
#[cfg(test)]
mod tests;

#[cfg(feature = "std")]
pub use any::read_section;
pub use any::{
    Functions, Section, SectionType, Sections, detect_format, functions, list, report, section_bytes, sections,
    symbol_at,
};
pub use erased::binfarce_bytes::ByteOrder;
pub use erased::binfarce_bytes::format::Format;
pub use erased::binfarce_bytes::functions::{FunctionSymbol, SectionFunction};
pub use erased::binfarce_elf_memory::segments::{CodeSegment, LoadAddress};
#[cfg(feature = "std")]
pub use error::StreamError;
pub use error::{Error, ErrorKind, Foreign, OutOfMemory, ParseError, UnexpectedEof};
#[cfg(feature = "std")]
pub use filter::filter_stream;
pub use filter::{Form, filter};
#[cfg(feature = "std")]
pub use identity::read_identity;
pub use identity::{Identity, IdentityKind, identity};
#[cfg(feature = "std")]
pub use process::{Frame, Process};
#[cfg(feature = "std")]
pub use streams::read_load_address;
pub use symbolizer::{Symbolizer, load_address, mapped_at};
pub use tables::{AllFunctions, Selection, Sums, SymbolTable, Tables};

use alloc::string::String;
use alloc::vec::Vec;
use core::fmt;
use demangle::SymbolData;

/// What the programs of this package are.
#[cfg(feature = "programs")]
#[doc(hidden)]
pub mod programs {
    use crate::{erased, shim::HostRuntime};
    use std::process::ExitCode;

    #[must_use]
    pub fn binfarce() -> ExitCode {
        erased::binfarce_command::main(HostRuntime::new())
    }

    #[must_use]
    pub fn binfarce_list() -> ExitCode {
        erased::binfarce_list::main(HostRuntime::new())
    }

    #[must_use]
    pub fn binfarce_size() -> ExitCode {
        erased::binfarce_size::main(HostRuntime::new())
    }
}

/// What the library for C calls.
#[cfg(feature = "c")]
#[doc(hidden)]
pub mod exports {
    pub use crate::erased::binfarce_c::{
        buffer::*, functions::*, headers::*, names::*, sections::*, status::*, texts::*,
    };
    pub use crate::shim::alloc::Global;
}

/// `32-bit little-endian ELF` or the like, `Mach-O`, `PE`, or `unknown`.
impl fmt::Display for Format {
    fn fmt(&self, f: &mut fmt::Formatter<'_>) -> fmt::Result {
        f.pad(match self {
            Format::Elf32 { byte_order: ByteOrder::LittleEndian } => "32-bit little-endian ELF",
            Format::Elf32 { byte_order: ByteOrder::BigEndian } => "32-bit big-endian ELF",
            Format::Elf64 { byte_order: ByteOrder::LittleEndian } => "64-bit little-endian ELF",
            Format::Elf64 { byte_order: ByteOrder::BigEndian } => "64-bit big-endian ELF",
            Format::Macho => "Mach-O",
            Format::PE => "PE",
            Format::Unknown => "unknown",
        })
    }
}

/// The answer of an erased reader, with std's types.
fn symbols_of(
    (symbols, size): (shim::Vec<erased::binfarce_names::demangle::SymbolData>, u64),
) -> Result<(Vec<SymbolData>, u64), OutOfMemory> {
    let mut with_std = shim::Vec::with_capacity(shim::alloc::Global, symbols.len())?;
    symbols.into_iter().for_each(|symbol| with_std.push_reserved(SymbolData::from(symbol)));
    Ok((with_std.into_std(), size))
}

/// A number of a little-endian header that was read before, so that it is there.
fn number_in<N: erased::binfarce_bytes::parser::RawNumber + Default>(file: &[u8], offset: usize) -> N {
    erased::binfarce_bytes::parser::number_at(file, offset, ByteOrder::LittleEndian).unwrap_or_default()
}

/// A text that is UTF-8, since it is made of UTF-8 texts.
fn string_of(bytes: shim::Vec<u8>) -> String {
    String::from_utf8(bytes.into_std()).unwrap_or_else(|e| String::from_utf8_lossy(e.as_bytes()).into_owned())
}
