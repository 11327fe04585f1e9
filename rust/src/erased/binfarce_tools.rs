// From crates/binfarce_tools/src/lib.rt, by tools/erase.

//! Listings of the function symbols of executables, and reports of their sizes by crate.

pub mod functions;
pub mod list;
#[cfg(feature = "std")]
pub mod program;
pub mod report;
pub mod tables;
pub mod writing;

pub use crate::erased::binfarce::SymbolTable;
