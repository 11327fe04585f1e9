// From crates/binfarce_bytes/src/parser.rt, by tools/erase.

//! Numbers and bytes at an offset, and the texts of `text`.

pub use crate::erased::binfarce_bytes::text::{parse_null_string, up_to_nul, utf8_text};
use crate::shim::ToSigned;
use crate::erased::binfarce_bytes::{ByteOrder, ParseError};
use crate::shim::error::Error;
use core::fmt;
use core::ops::Range;

/// The bytes end too soon.
#[derive(Debug, Clone, Copy)]
pub struct UnexpectedEof {}

impl fmt::Display for UnexpectedEof {
    fn fmt(&self, f: &mut fmt::Formatter<'_>) -> fmt::Result {
        write!(f, "Unexpected end of file")
    }
}

impl Error for UnexpectedEof {}

/// A number of `SIZE` bytes, read in a stream's byte order.
pub trait RawNumber: Sized {
    /// How many bytes the number has.
    const SIZE: usize;

    /// The number at the stream's offset, which doesn't move; `None` if a byte is missing.
    fn parse(s: &mut Stream) -> Option<Self>;
}

impl RawNumber for u8 {
    const SIZE: usize = 1;

    #[inline]
    fn parse(s: &mut Stream) -> Option<u8> {
        s.bytes.get(s.offset).copied()
    }
}

impl RawNumber for i8 {
    const SIZE: usize = 1;

    #[inline]
    fn parse(s: &mut Stream) -> Option<i8> {
        match u8::parse(s) {
            None => None,
            Some(number) => Some(number.to_signed()),
        }
    }
}

impl RawNumber for u16 {
    const SIZE: usize = 2;

    #[inline]
    fn parse(s: &mut Stream) -> Option<u16> {
        let end = s.offset.checked_add(2)?;
        let bytes = s.bytes.get(s.offset..end)?;
        let bytes = [bytes[0], bytes[1]];
        match s.byte_order {
            ByteOrder::LittleEndian => Some(u16::from_le_bytes(bytes)),
            ByteOrder::BigEndian => Some(u16::from_be_bytes(bytes)),
        }
    }
}

impl RawNumber for i16 {
    const SIZE: usize = 2;

    #[inline]
    fn parse(s: &mut Stream) -> Option<i16> {
        match u16::parse(s) {
            None => None,
            Some(number) => Some(number.to_signed()),
        }
    }
}

impl RawNumber for u32 {
    const SIZE: usize = 4;

    #[inline]
    fn parse(s: &mut Stream) -> Option<u32> {
        let end = s.offset.checked_add(4)?;
        let bytes = s.bytes.get(s.offset..end)?;
        let bytes = [bytes[0], bytes[1], bytes[2], bytes[3]];
        match s.byte_order {
            ByteOrder::LittleEndian => Some(u32::from_le_bytes(bytes)),
            ByteOrder::BigEndian => Some(u32::from_be_bytes(bytes)),
        }
    }
}

impl RawNumber for u64 {
    const SIZE: usize = 8;

    #[inline]
    fn parse(s: &mut Stream) -> Option<u64> {
        let end = s.offset.checked_add(8)?;
        let bytes = s.bytes.get(s.offset..end)?;
        let bytes = [
            bytes[0], bytes[1], bytes[2], bytes[3], bytes[4], bytes[5], bytes[6], bytes[7],
        ];
        match s.byte_order {
            ByteOrder::LittleEndian => Some(u64::from_le_bytes(bytes)),
            ByteOrder::BigEndian => Some(u64::from_be_bytes(bytes)),
        }
    }
}

/// Bytes, an offset and a byte order. A call that fails leaves it unchanged.
#[derive(Clone, Copy)]
pub struct Stream<'a> {
    bytes: &'a [u8],
    offset: usize,
    byte_order: ByteOrder,
}

impl<'a> Stream<'a> {
    /// A stream at the first byte.
    #[inline]
    pub fn new(bytes: &'a [u8], byte_order: ByteOrder) -> Self {
        Stream {
            bytes,
            offset: 0,
            byte_order,
        }
    }

    /// A stream at `offset`; fails unless that is below the length.
    #[inline]
    pub fn new_at(
        bytes: &'a [u8],
        offset: usize,
        byte_order: ByteOrder,
    ) -> Result<Self, UnexpectedEof> {
        if offset < bytes.len() {
            Ok(Stream {
                bytes,
                offset,
                byte_order,
            })
        } else {
            Err(UnexpectedEof {})
        }
    }

    /// Whether the offset is at or past the length.
    #[inline]
    pub fn at_end(&self) -> bool {
        self.offset >= self.bytes.len()
    }

    /// The offset in bytes.
    #[inline]
    pub fn offset(&self) -> usize {
        self.offset
    }

    /// How many bytes are left, 0 past the end.
    #[inline]
    pub fn remaining(&self) -> usize {
        self.bytes.len().saturating_sub(self.offset)
    }

    /// Moves the offset by `len` without reading bytes; fails only if it would exceed `usize`.
    #[inline]
    pub fn skip_len(&mut self, len: usize) -> Result<(), UnexpectedEof> {
        match self.offset.checked_add(len) {
            Some(offset) => {
                self.offset = offset;
                Ok(())
            }
            None => Err(UnexpectedEof {}),
        }
    }

    /// Moves the offset past a `T` without reading bytes.
    #[inline]
    pub fn skip<T: RawNumber>(&mut self) -> Result<(), UnexpectedEof> {
        self.skip_len(T::SIZE)
    }

    /// The number at the offset, which moves past it; fails if a byte is missing.
    #[inline]
    pub fn read<T: RawNumber>(&mut self) -> Result<T, UnexpectedEof> {
        let offset = self.offset.checked_add(T::SIZE).ok_or(UnexpectedEof {})?;
        let number = T::parse(self).ok_or(UnexpectedEof {})?;
        self.offset = offset;
        Ok(number)
    }

    /// The `len` bytes at the offset, as a slice; the offset moves past them.
    ///
    /// Fails if the offset plus `len` exceeds `usize` or the length.
    #[inline]
    pub fn read_bytes(&mut self, len: usize) -> Result<&'a [u8], UnexpectedEof> {
        let offset = self.offset.checked_add(len).ok_or(UnexpectedEof {})?;
        let bytes = self.bytes.get(self.offset..offset).ok_or(UnexpectedEof {})?;
        self.offset = offset;
        Ok(bytes)
    }
}

/// The number at `place`; fails if a byte is missing.
#[inline]
pub fn number_at<T: RawNumber>(
    bytes: &[u8],
    place: usize,
    byte_order: ByteOrder,
) -> Result<T, UnexpectedEof> {
    Stream::new_at(bytes, place, byte_order)?.read()
}

/// The number as an index. One that doesn't fit `usize` is `usize::MAX`, which lies past every slice.
#[inline]
pub fn to_index(n: u64) -> usize {
    usize::try_from(n).unwrap_or(usize::MAX)
}

/// The range of the `size` bytes from `offset` on; `MalformedInput` if its end exceeds `usize`.
#[inline]
pub fn range(offset: u64, size: u64) -> Result<Range<usize>, ParseError> {
    let end = offset.checked_add(size).ok_or(ParseError::MalformedInput)?;
    match usize::try_from(end) {
        Ok(end) => Ok(to_index(offset)..end),
        Err(_) => Err(ParseError::MalformedInput),
    }
}

/// The `size` bytes from `offset` on, a slice of `bytes`; fails if their end exceeds `usize` or the length.
#[inline]
pub fn slice_at(bytes: &[u8], offset: usize, size: usize) -> Result<&[u8], UnexpectedEof> {
    let end = offset.checked_add(size).ok_or(UnexpectedEof {})?;
    bytes.get(offset..end).ok_or(UnexpectedEof {})
}
