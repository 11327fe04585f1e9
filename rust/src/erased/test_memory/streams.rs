// From crates/test_memory/src/streams.rt, by tools/erase.

//! The calls of a stream, and a text that ends with NUL.

use crate::erased::binfarce_bytes::ByteOrder;
use crate::erased::binfarce_bytes::parser::{Stream, UnexpectedEof, parse_null_string};
use crate::erased::test_image_samples::tally::Tally;

const BYTES: [u8; 10] = [0xFF, 0x80, 1, 2, 3, 4, 5, 6, 7, 8];

fn is_read(order: ByteOrder, second: u16) -> Result<bool, UnexpectedEof> {
    let mut stream = Stream::new(&BYTES, order);
    let first = stream.read::<i8>()?;
    let is_second = stream.read::<u16>()? == second;
    stream.skip::<u8>()?;
    let part = stream.read_bytes(2)?;
    stream.skip_len(3)?;
    Ok(
        first == -1
            && is_second
            && part == &BYTES[4..6]
            && stream.offset() == 9
            && stream.remaining() == 1
            && !stream.at_end(),
    )
}

// A call that is refused leaves the offset as it was.
fn is_refused() -> Result<bool, UnexpectedEof> {
    let mut stream = Stream::new_at(&BYTES, 9, ByteOrder::BigEndian)?;
    let is_refused = stream.read::<u16>().is_err()
        && stream.read_bytes(2).is_err()
        && stream.skip_len(usize::MAX).is_err();
    Ok(
        is_refused
            && stream.offset() == 9
            && Stream::new_at(&BYTES, 10, ByteOrder::BigEndian).is_err(),
    )
}

// The end may be passed.
fn is_at_the_end() -> Result<bool, UnexpectedEof> {
    let mut stream = Stream::new_at(&BYTES, 9, ByteOrder::LittleEndian)?;
    stream.skip::<u32>()?;
    Ok(stream.at_end() && stream.offset() == 13 && stream.remaining() == 0)
}

// Whether the bytes that were read are right, and no call was refused.
fn is_right(row: Result<bool, UnexpectedEof>) -> bool {
    row.unwrap_or(false)
}

// An offset, and the text from there to the first NUL.
const TEXTS: [(usize, Option<&str>); 6] = [
    (0, None),
    (1, Some("ab")),
    (2, Some("b")),
    (4, None),
    (6, None),
    (8, None),
];

pub(crate) fn add_streams(tally: &mut Tally) {
    let little = is_right(is_read(ByteOrder::LittleEndian, 0x0180));
    tally.add("a stream, little endian", Ok(little));
    let big = is_right(is_read(ByteOrder::BigEndian, 0x8001));
    tally.add("a stream, big endian", Ok(big));
    let is_refused = is_right(is_refused());
    tally.add("a stream that ends too early", Ok(is_refused));
    let is_at_the_end = is_right(is_at_the_end());
    tally.add("a stream past its end", Ok(is_at_the_end));
    for (start, text) in &TEXTS {
        let is_right = parse_null_string(b"\0ab\0\xFF\0c", *start) == *text;
        tally.add("a text that ends with NUL", Ok(is_right));
    }
}
