//! The mangled names within a text.

use crate::erased::binfarce_filtering::filter as erased;
#[cfg(feature = "std")]
use crate::erased::binfarce_filtering::stream::{self, StreamError};
use crate::error::OutOfMemory;
use crate::shim::alloc::Global;
#[cfg(feature = "std")]
use crate::streams::Kept;
use crate::string_of;
use alloc::string::String;
#[cfg(feature = "std")]
use std::io::{self, Read, Write};

/// Which text of a name is shown.
#[derive(Debug, Clone, Copy, PartialEq, Eq, Hash)]
#[non_exhaustive]
pub enum Form {
    /// [`SymbolName::trimmed`](crate::demangle::SymbolName::trimmed): without hashes and disambiguators.
    Trimmed,
    /// [`SymbolName::complete`](crate::demangle::SymbolName::complete): with them.
    Complete,
}

/// Returns `text` with each mangled name in it replaced by its readable form. Everything else is unchanged.
///
/// A name begins with `_ZN` and a digit, or with `_R` and one of `N`, `I`, `M`, `X` and `Y`, also within a word such as
/// `.text._ZN..`, and ends where its mangling does. One with `_ZN` has a hash as its last element, `17h` and 16 lower-case
/// hexadecimal digits: so C++ names stay whole. What follows a name is kept, except `.llvm.` and LLVM's number, of `0` to `9`, `A`
/// to `F` and `@`, where the name is replaced. A name whose readable form has a control character or more than 2^20 bytes is
/// unchanged. So is a run of more than 2^20 bytes: a run goes from a `_` to the next byte other than an ASCII letter or digit,
/// `_`, `$` and `.`.
///
/// # Errors
///
/// [`OutOfMemory`] if an allocation failed.
///
/// # Examples
///
/// ```
/// use binfarce::{Form, filter};
///
/// let line = "call 1beb0 <_ZN3foo3bar17h05af221e174051e9E+0x1f>";
/// assert_eq!(filter(line, Form::Trimmed)?, "call 1beb0 <foo::bar+0x1f>");
/// assert_eq!(filter(line, Form::Complete)?, "call 1beb0 <foo::bar::h05af221e174051e9+0x1f>");
/// # Ok::<(), binfarce::OutOfMemory>(())
/// ```
pub fn filter(text: &str, form: Form) -> Result<String, OutOfMemory> {
    Ok(string_of(erased::filter(Global, form == Form::Complete, text.as_bytes())?))
}

/// Copies `input` to `output` as [`filter`] does, byte strings of any kind. What has been read is written before the next
/// read, except the beginning of what may become a name, and `output` is flushed each time: so it serves in a pipe. Memory
/// goes by the longest run that may hold names. With the feature `std`.
///
/// # Errors
///
/// That of `input` or `output`, except [`io::ErrorKind::Interrupted`], where the call is repeated. After an error of `input`
/// everything before it has been filtered and written. [`io::ErrorKind::OutOfMemory`] if an allocation failed, and
/// [`io::ErrorKind::WriteZero`] where `output` takes no more bytes. [`io::ErrorKind::InvalidData`] where one of them counts more
/// bytes than the buffer holds.
///
/// # Examples
///
/// ```
/// use binfarce::{Form, filter_stream};
///
/// let mut output = Vec::new();
/// filter_stream(&b"in _RNvC1a1b.\n"[..], &mut output, Form::Trimmed)?;
/// assert_eq!(output, b"in a::b.\n");
/// # Ok::<(), std::io::Error>(())
/// ```
#[cfg(feature = "std")]
pub fn filter_stream<R: Read, W: Write>(input: R, output: W, form: Form) -> io::Result<()> {
    let (mut input, mut output) = (Kept::new(input), Kept::new(output));
    match stream::filter_stream(Global, form == Form::Complete, &mut input, &mut output) {
        Ok(()) => Ok(()),
        Err(StreamError::Read) => Err(input.into_error(io::ErrorKind::TimedOut)),
        Err(StreamError::Write) => Err(output.into_error(io::ErrorKind::WriteZero)),
        Err(StreamError::OutOfMemory) => Err(OutOfMemory.into()),
    }
}
