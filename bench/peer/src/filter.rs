//! The filter's work: chunks of 64 KiB, runs of the bytes that names have, and of each run that begins with `_` the trimmed
//! text of the crate's answer.

use binfarce::demangle::{Kind, SymbolName};
use std::io::{self, Read, Write};

fn is_run_byte(b: u8) -> bool {
    b.is_ascii_alphanumeric() || b == b'_' || b == b'$' || b == b'.'
}

// Writes what is shown of a run.
fn push_run(run: &[u8], out: &mut Vec<u8>) {
    if run.first() != Some(&b'_') {
        out.extend_from_slice(run);
        return;
    }
    let dots = run.iter().rev().take_while(|b| **b == b'.').count();
    let (name, rest) = run.split_at(run.len() - dots);
    let answer = SymbolName::demangle(std::str::from_utf8(name).unwrap());
    match answer.kind {
        Kind::Unknown => out.extend_from_slice(name),
        _ => out.extend_from_slice(answer.trimmed.as_bytes()),
    }
    out.extend_from_slice(rest);
}

/// Copies standard input to standard output, with the names in it made readable.
pub fn filter() -> io::Result<()> {
    let mut input = io::stdin().lock();
    let mut output = io::stdout().lock();
    let mut chunk = vec![0; 1 << 16];
    let mut kept = Vec::new();
    let mut out = Vec::new();
    loop {
        let n = input.read(&mut chunk)?;
        if n == 0 {
            push_run(&kept, &mut out);
            return output.write_all(&out);
        }
        kept.extend_from_slice(&chunk[..n]);
        let mut at = 0;
        loop {
            let len = kept[at..].iter().take_while(|b| is_run_byte(**b)).count();
            if at + len == kept.len() {
                break;
            }
            push_run(&kept[at..at + len], &mut out);
            out.push(kept[at + len]);
            at += len + 1;
        }
        kept.drain(..at);
        output.write_all(&out)?;
        output.flush()?;
        out.clear();
    }
}
