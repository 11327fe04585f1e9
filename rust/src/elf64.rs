//! 64-bit ELF files of either byte order.
//!
//! # Examples
//!
//! ```
//! use binfarce::{ByteOrder, ParseError, elf64};
//!
//! /// The names of the functions in `.text`, as the file stores them.
//! fn stored_names(file: &[u8]) -> Result<Vec<&str>, ParseError> {
//!     let file = elf64::parse(file, ByteOrder::LittleEndian)?;
//!     let (functions, _text_size) = file.functions(".text")?;
//!     Ok(functions.map(|function| function.name).collect())
//! }
//! # assert_eq!(stored_names(b""), Err(ParseError::UnexpectedEof));
//! ```

crate::elf::reader!(elf64, Elf64, Elf64Header, u64, 64);
