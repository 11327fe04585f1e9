// From crates/binfarce_tables/src/lib.rt, by tools/erase.

//! Files of which only the tables are read: each part once, into memory of its size. Names stay as they are stored.

pub(crate) mod beginning;
pub mod elf;
pub(crate) mod error;
pub mod format;
pub mod loading;
pub mod macho;
pub(crate) mod opened;
pub mod pe;
pub(crate) mod sections;
pub(crate) mod segments;

pub use crate::erased::binfarce_tables::beginning::Beginning;
pub use crate::erased::binfarce_tables::error::ReadError;
pub use crate::erased::binfarce_tables::opened::{Opened, open, part};
pub use crate::erased::binfarce_elf::class::Width;
pub use crate::erased::binfarce_elf_memory::versions::VersionNames;
