// From crates/binfarce_names/src/lib.rt, by tools/erase.

//! Readable names of Rust symbols: the kind of a name, its readable form, and its crate.

pub mod demangle;
