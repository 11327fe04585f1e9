// From crates/binfarce_identity/src/lib.rt, by tools/erase.

//! What says from which build a file is: the build ID of an ELF file, the UUID of a Mach-O file, the GUID and the age of a PE
//! file's CodeView record.

pub(crate) mod elf;
pub(crate) mod identity;
pub(crate) mod line;
pub(crate) mod macho;
pub(crate) mod notes;
pub(crate) mod pe;
pub(crate) mod reading;

pub use crate::erased::binfarce_identity::identity::{Identity, Kind};
pub use crate::erased::binfarce_identity::line::{Lack, Style, identity_line, lacked};
pub use crate::erased::binfarce_identity::reading::read_identity;
