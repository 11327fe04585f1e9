//! What the Rust crate `binfarce` makes of files and names, to compare with and to measure beside:
//!
//! - `peer list FILE [SECTION]`: the listing that `binfarce-list` makes;
//! - `peer symbols FILE [SECTION]`: how many symbols there are, without a listing;
//! - `peer names`: of each line of standard input the kind, the complete and the trimmed name and the crate, with tabs
//!   between them, in which a tab, a line feed, a return and a backslash are `\t`, `\n`, `\r` and `\\`; `PANIC` where the
//!   crate panics;
//! - `peer filter`: standard input with its names made readable, as `binfarce filter` does.
//!
//! The status is 1 where a file is refused, and 2 for other arguments.

mod filter;

use binfarce::demangle::{Kind, SymbolData, SymbolName};
use binfarce::{Format, ParseError, detect_format, elf32, elf64, macho, pe};
use std::io::{self, BufRead, BufWriter, Write};
use std::{env, fs, panic, process, thread};

fn main() {
    // The crate recurses as deep as a name nests.
    let worker = thread::Builder::new().stack_size(1 << 30).spawn(run).unwrap();
    process::exit(worker.join().unwrap_or(101));
}

fn run() -> i32 {
    let words: Vec<String> = env::args().skip(1).collect();
    let words: Vec<&str> = words.iter().map(String::as_str).collect();
    let ended = match words[..] {
        ["list", file] => list(file, ".text"),
        ["list", file, section] => list(file, section),
        ["symbols", file] => count(file, ".text"),
        ["symbols", file, section] => count(file, section),
        ["names"] => names().map_err(|e| e.to_string()),
        ["filter"] => filter::filter().map_err(|e| e.to_string()),
        _ => {
            eprintln!("usage: peer list|symbols FILE [SECTION], peer names, peer filter");
            return 2;
        }
    };
    match ended {
        Ok(()) => 0,
        Err(why) => {
            eprintln!("binfarce-list: {why}");
            1
        }
    }
}

fn list(file: &str, section: &str) -> Result<(), String> {
    let (symbols, text_size) = symbols(file, section)?;
    let mut out = BufWriter::with_capacity(1 << 16, io::stdout().lock());
    let mut write = || -> io::Result<()> {
        for symbol in &symbols {
            writeln!(out, "{:016x} {:>10} {}", symbol.address, symbol.size, symbol.name.trimmed)?;
        }
        writeln!(out, "text {text_size}")?;
        out.flush()
    };
    write().map_err(|e| e.to_string())
}

fn count(file: &str, section: &str) -> Result<(), String> {
    println!("{}", symbols(file, section)?.0.len());
    Ok(())
}

fn symbols(file: &str, section: &str) -> Result<(Vec<SymbolData>, u64), String> {
    let data = fs::read(file).map_err(|_| "cannot read file")?;
    let made = match detect_format(&data) {
        Format::Elf32 { byte_order } => elf32::parse(&data, byte_order).and_then(|elf| elf.symbols(section)),
        Format::Elf64 { byte_order } => elf64::parse(&data, byte_order).and_then(|elf| elf.symbols(section)),
        Format::Macho => macho::parse(&data).and_then(|macho| macho.symbols()),
        Format::PE => pe::parse(&data).and_then(|pe| pe.symbols()),
        Format::Unknown => return Err("unknown file format".to_string()),
    };
    made.map_err(|e: ParseError| e.to_string())
}

fn names() -> io::Result<()> {
    panic::set_hook(Box::new(|_| {}));
    let mut out = BufWriter::new(io::stdout().lock());
    for line in io::stdin().lock().split(b'\n') {
        let name = String::from_utf8_lossy(&line?).into_owned();
        let answer = panic::catch_unwind(|| answer(&name));
        writeln!(out, "{}", answer.as_deref().unwrap_or("PANIC"))?;
    }
    out.flush()
}

fn answer(name: &str) -> String {
    let name = SymbolName::demangle(name);
    let kind = match name.kind {
        Kind::Unknown => "Unknown",
        Kind::Legacy => "Legacy",
        Kind::V0 => "V0",
    };
    let krate = name.crate_name.map_or("None".to_string(), |krate| format!("Some({})", escaped(&krate)));
    [kind, &escaped(&name.complete), &escaped(&name.trimmed), &krate].join("\t")
}

fn escaped(text: &str) -> String {
    text.replace('\\', "\\\\").replace('\t', "\\t").replace('\n', "\\n").replace('\r', "\\r")
}
