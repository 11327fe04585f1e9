// From crates/binfarce_v0_grammar/src/lib.rt, by tools/erase.

//! The grammar of Rust's v0 mangling (RFC 2603): its numbers, its identifiers, its forms, and the reading of a name by
//! the grammar alone.

pub mod forms;
pub mod identifiers;
pub mod limits;
pub mod numbers;
pub mod positions;
pub mod punycode;
pub mod reading;
