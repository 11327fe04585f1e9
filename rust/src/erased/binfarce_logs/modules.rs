// From crates/binfarce_logs/src/modules.rt, by tools/erase.

//! Files that addresses may be in.

use crate::erased::binfarce_addresses::at::Places;
use crate::erased::binfarce_addresses::lookup::Lookup;

/// A file that the addresses of a text may be in: its function symbols, and how addresses are looked up among them.
#[derive(Clone, Copy)]
pub struct Module<'a> {
    /// Its function symbols.
    pub places: &'a Places<'a>,
    /// Where it is loaded, what it is called in the text, and whether addresses are return addresses.
    pub lookup: Lookup<'a>,
}
