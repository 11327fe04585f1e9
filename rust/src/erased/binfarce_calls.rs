// From crates/binfarce_calls/src/lib.rt, by tools/erase.

//! What a call of `binfarce` asks for, by its options; two files compared, and the sections of several.

pub mod at;
pub mod compare;
pub mod filter;
pub(crate) mod limits;
pub mod placing;
pub mod request;
pub mod sections;
pub mod status;
