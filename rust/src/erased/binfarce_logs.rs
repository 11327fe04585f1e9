// From crates/binfarce_logs/src/lib.rt, by tools/erase.

//! Addresses in texts, such as logs and backtraces: annotates them, and finds where files are loaded in the maps of a
//! process.

pub mod annotate;
pub(crate) mod faults;
pub mod framed;
pub mod maps;
pub(crate) mod module;
pub mod modules;
pub(crate) mod pages;
pub(crate) mod word;

pub use crate::erased::binfarce_logs::modules::Module;
