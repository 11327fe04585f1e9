//! What the proved sources call otherwise than Rust's std has it: memory whose requests can fail, files that are read at
//! offsets, and standard streams without a buffer. It is written by hand, and tested by itself.

pub mod alloc;
pub mod collections;
#[cfg(feature = "std")]
pub mod env;
#[cfg(feature = "std")]
pub mod fs;
pub mod io;
mod later;
#[cfg(feature = "std")]
mod runtime;
pub mod simd;
mod string;
#[cfg(test)]
pub mod test;
#[cfg(test)]
mod tests;
mod vec;
#[cfg(not(feature = "std"))]
mod without_std;

pub use later::{ToSigned, TrimmedAscii, ptr, to_usize};
#[cfg(feature = "std")]
pub use runtime::HostRuntime;
#[cfg(feature = "std")]
pub use std::error;
pub use string::String;
pub use vec::{CollectIn, Vec};
#[cfg(not(feature = "std"))]
pub use without_std::{error, fs};
