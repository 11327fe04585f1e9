// From crates/binfarce_sections/src/lib.rt, by tools/erase.

//! The sections of executables: a section's bytes by its name, and a list of all sections.

pub mod bytes;
pub mod changes;
pub mod error;
pub mod kinds;
pub mod list;
pub mod rows;
pub mod sections;
pub mod sums;
pub mod tables;
