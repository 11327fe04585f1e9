//! What the inputs of fuzz targets mean. `rust/tests/fuzz.rs` has it too.

use std::ops::Range;

/// Whether a part that was read from a file is a slice of it.
pub fn is_part(file: &[u8], part: &[u8]) -> bool {
    let Range { start, end } = file.as_ptr_range();
    let part = part.as_ptr_range();
    part.is_empty() || start <= part.start && part.end <= end
}

/// A function symbol in `.text`: a name, an address and a size.
pub type Row = (&'static str, u64, u64);

const NAMES: [&str; 8] = [
    "_ZN3foo3bar17h05af221e174051e9E",
    "_ZN4core3fmt5write17h05af221e174051e9E",
    "_ZN3foo3baz17h05af221e174051e9E",
    "_RNvC6_123foo3bar",
    "_RINvC1a1bmE",
    "_RINvC1a1bhE",
    "main",
    "_R",
];

/// The function symbols that an input means, each of five bytes. All addresses are below 2^17.
pub fn rows(data: &[u8]) -> Vec<Row> {
    let row = |bytes: &[u8]| {
        let number = |at| u64::from(u16::from_le_bytes([bytes[at], bytes[at + 1]]));
        (NAMES[usize::from(bytes[0]) % NAMES.len()], number(1), number(3))
    };
    // A symbol of size 0 isn't a function's.
    data.chunks_exact(5).map(row).filter(|row| row.2 != 0).collect()
}

/// A little-endian 64-bit ELF program with these function symbols.
pub fn elf(rows: &[Row]) -> Vec<u8> {
    const HEADER: u64 = 64;
    const TEXT: u16 = 1;
    let mut strings = b"\0.text\0.symtab\0.strtab\0".to_vec();
    let mut symbols = vec![0; 24];
    for (name, address, size) in rows {
        symbols.extend((strings.len() as u32).to_le_bytes());
        // A function (`STT_FUNC`).
        symbols.extend([2, 0]);
        symbols.extend(TEXT.to_le_bytes());
        symbols.extend(address.to_le_bytes());
        symbols.extend(size.to_le_bytes());
        strings.extend(name.bytes().chain([0]));
    }
    let (symbols_at, symbols_size) = (HEADER, symbols.len() as u64);
    let (strings_at, strings_size) = (symbols_at + symbols_size, strings.len() as u64);
    let mut file = b"\x7fELF\x02\x01\x01\0\0\0\0\0\0\0\0\0".to_vec();
    // An executable file of version 1.
    file.extend([2, 0, 62, 0, 1, 0, 0, 0]);
    for number in [0, 0, strings_at + strings_size] {
        file.extend(number.to_le_bytes());
    }
    file.extend([0; 4]);
    // The sizes of headers, and their numbers; the names of sections are in section 3.
    for number in [64u16, 56, 0, 64, 4, 3] {
        file.extend(number.to_le_bytes());
    }
    file.extend(symbols);
    file.extend(strings);
    // Name, type, flags, address, offset, size, link, information, alignment, size of an entry.
    for (name, kind, address, offset, size, link, entry) in [
        (0u32, 0u32, 0u64, 0u64, 0u64, 0u32, 0u64),
        (1, 1, 0, 0, 0x20000, 0, 0),
        (7, 2, 0, symbols_at, symbols_size, 3, 24),
        (15, 3, 0, strings_at, strings_size, 0, 0),
    ] {
        file.extend([name, kind].map(u32::to_le_bytes).concat());
        file.extend([0, address, offset, size].map(u64::to_le_bytes).concat());
        file.extend([link, 0].map(u32::to_le_bytes).concat());
        file.extend([1, entry].map(u64::to_le_bytes).concat());
    }
    file
}
