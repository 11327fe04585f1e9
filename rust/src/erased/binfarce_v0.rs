// From crates/binfarce_v0/src/lib.rt, by tools/erase.

//! Rust's v0 manglings (RFC 2603): a name is read by the grammar, and printed in readable form.

pub mod consts;
pub(crate) mod identifiers;
pub(crate) mod lists;
pub mod mangling;
pub mod paths;
pub(crate) mod productions;
pub mod types;
