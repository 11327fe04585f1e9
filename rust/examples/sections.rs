//! sections FILE: lists the sections of an ELF file that `find_section` asks about, `{number} {name} {offset:x} {size:x}`.

use binfarce::{Format, ParseError, detect_format, elf32, elf64};
use std::{cell::Cell, env, fs, io, ops::Range, process::ExitCode};

fn list(data: &[u8]) -> Result<(), ParseError> {
    let number = Cell::new(0);
    let print = |name: Option<&str>, range: Result<Range<usize>, ParseError>| {
        let range = range.unwrap_or(0..0);
        println!("{} {} {:x} {:x}", number.get(), name.unwrap_or_default(), range.start, range.len());
        number.set(number.get() + 1);
        false
    };
    match detect_format(data) {
        Format::Elf32 { byte_order } => {
            let file = elf32::parse(data, byte_order)?;
            file.find_section(|s| print(s.name(&file), s.range()))?;
        }
        Format::Elf64 { byte_order } => {
            let file = elf64::parse(data, byte_order)?;
            file.find_section(|s| print(s.name(&file), s.range()))?;
        }
        _ => (),
    }
    Ok(())
}

fn main() -> io::Result<ExitCode> {
    let data = fs::read(env::args().nth(1).unwrap_or_default())?;
    Ok(match list(&data) {
        Ok(()) => ExitCode::SUCCESS,
        Err(e) => {
            eprintln!("{e}");
            ExitCode::FAILURE
        }
    })
}
