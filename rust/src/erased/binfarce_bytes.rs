// From crates/binfarce_bytes/src/lib.rt, by tools/erase.

//! Numbers and texts in a file's bytes, and parse errors: the basis of the readers of all formats.

pub mod error;
pub mod format;
pub mod functions;
pub mod parser;
pub mod sizes;
pub mod source;
pub(crate) mod text;

pub use crate::erased::binfarce_bytes::error::ParseError;
pub use crate::erased::binfarce_bytes::parser::UnexpectedEof;

/// The order of a number's bytes in a file.
#[derive(Clone, Copy, PartialEq, Eq, Hash, Debug)]
pub enum ByteOrder {
    /// Little endian: the least significant byte first.
    LittleEndian,
    /// Big endian: the most significant byte first.
    BigEndian,
}
