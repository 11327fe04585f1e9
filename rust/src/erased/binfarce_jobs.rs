// From crates/binfarce_jobs/src/lib.rt, by tools/erase.

//! What the commands of `binfarce` do, over any file, system around them, and output.

pub mod at;
pub(crate) mod code;
pub mod files;
pub mod hint;
pub mod limit;
pub mod section;
pub mod show;
