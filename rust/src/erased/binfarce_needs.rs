// From crates/binfarce_needs/src/lib.rt, by tools/erase.

//! What an ELF file needs from others: its undefined symbols, with their versions and the files that these come from.

pub(crate) mod lines;
pub(crate) mod needs;
pub(crate) mod reading;
pub(crate) mod versions;

pub use crate::erased::binfarce_needs::lines::{Lack, Other, needs_text, unread};
pub use crate::erased::binfarce_needs::needs::{Need, needs_of};
pub use crate::erased::binfarce_needs::reading::{Tables, read_needs};
