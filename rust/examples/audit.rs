//! audit FILE..: prints whether each program has the list of its dependencies that `cargo auditable` records, in a section
//! `.dep-v0`, and ends with status 1 unless all have it. `audit --extract FILE` writes the list, which is JSON in the zlib format.

use std::fs::File;
use std::io::{self, Write};
use std::{env, process::ExitCode};

/// The recorded list, of which the two bytes of a zlib header are checked (RFC 1950).
fn recorded(path: &str) -> io::Result<Vec<u8>> {
    let list = binfarce::read_section(File::open(path)?, ".dep-v0")?;
    match list[..] {
        [method, flags, ..] if method & 15 == 8 && u16::from_be_bytes([method, flags]) % 31 == 0 => Ok(list),
        _ => Err(io::Error::new(io::ErrorKind::InvalidData, "not in the zlib format")),
    }
}

fn main() -> io::Result<ExitCode> {
    let words = env::args().skip(1).collect::<Vec<_>>();
    if let [option, path] = &words[..] {
        if option == "--extract" {
            io::stdout().write_all(&recorded(path)?)?;
            return Ok(ExitCode::SUCCESS);
        }
    }
    let mut status = ExitCode::SUCCESS;
    for path in &words {
        match recorded(path) {
            Ok(list) => println!("{path}: {} bytes of dependencies", list.len()),
            Err(e) => {
                println!("{path}: {e}");
                status = ExitCode::FAILURE;
            }
        }
    }
    Ok(status)
}
