//! symbols FILE: lists the function symbols of an ELF, Mach-O or PE file by this crate, as binfarce-list does.

use binfarce::{Format, ParseError, demangle::SymbolData, detect_format, elf32, elf64, macho, pe};
use std::io::{self, BufWriter, Write};
use std::{env, fs, process::ExitCode};

fn symbols(data: &[u8]) -> Option<Result<(Vec<SymbolData>, u64), ParseError>> {
    Some(match detect_format(data) {
        Format::Elf32 { byte_order } => elf32::parse(data, byte_order).and_then(|f| f.symbols(".text")),
        Format::Elf64 { byte_order } => elf64::parse(data, byte_order).and_then(|f| f.symbols(".text")),
        Format::Macho => macho::parse(data).and_then(|f| f.symbols()),
        Format::PE => pe::parse(data).and_then(|f| f.symbols()),
        Format::Unknown => return None,
    })
}

fn main() -> io::Result<ExitCode> {
    let data = fs::read(env::args().nth(1).unwrap_or_default())?;
    match symbols(&data) {
        Some(Ok((symbols, size))) => {
            let mut out = BufWriter::new(io::stdout().lock());
            for s in symbols {
                writeln!(out, "{:016x} {:>10} {}", s.address, s.size, s.name.trimmed)?;
            }
            writeln!(out, "text {size}")?;
            out.flush()?;
            return Ok(ExitCode::SUCCESS);
        }
        Some(Err(e)) => eprintln!("{e}"),
        None => eprintln!("unknown file format"),
    }
    Ok(ExitCode::FAILURE)
}
