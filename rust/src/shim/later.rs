//! What std has in later versions of Rust.

/// `cast_signed` of integers, from 1.87 on.
pub trait ToSigned<S> {
    /// The signed integer of the same bits.
    fn to_signed(self) -> S;
}

impl ToSigned<i8> for u8 {
    #[inline]
    fn to_signed(self) -> i8 {
        self as i8
    }
}

impl ToSigned<i16> for u16 {
    #[inline]
    fn to_signed(self) -> i16 {
        self as i16
    }
}

/// `trim_ascii` and its likes of byte slices, from 1.80 on.
pub trait TrimmedAscii {
    /// The bytes without ASCII whitespace at their beginning.
    fn trimmed_ascii_start(&self) -> &[u8];

    /// The bytes without ASCII whitespace at their end.
    fn trimmed_ascii_end(&self) -> &[u8];

    /// The bytes without either.
    fn trimmed_ascii(&self) -> &[u8];
}

impl TrimmedAscii for [u8] {
    fn trimmed_ascii_start(&self) -> &[u8] {
        let start = self.iter().position(|byte| !byte.is_ascii_whitespace());
        &self[start.unwrap_or(self.len())..]
    }

    fn trimmed_ascii_end(&self) -> &[u8] {
        let last = self.iter().rposition(|byte| !byte.is_ascii_whitespace());
        &self[..last.map_or(0, |last| last + 1)]
    }

    fn trimmed_ascii(&self) -> &[u8] {
        self.trimmed_ascii_start().trimmed_ascii_end()
    }
}

/// Pointers.
pub mod ptr {
    pub use core::ptr::*;

    /// A reference as a pointer, from 1.76 on.
    #[inline]
    pub fn from_ref<T>(to: &T) -> *const T {
        to
    }
}

/// A number that every `usize` holds: one has 32 bits or more.
pub trait Narrow {
    fn widened(self) -> usize;
}

macro_rules! narrow {
    ($($N:ty),*) => {$(
        impl Narrow for $N {
            #[inline]
            fn widened(self) -> usize {
                self as usize
            }
        }
    )*};
}

narrow!(bool, char, u8, u16, u32, usize);

/// `as usize` of a number that isn't wider.
#[inline]
pub fn to_usize<N: Narrow>(number: N) -> usize {
    number.widened()
}
