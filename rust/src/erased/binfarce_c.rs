// From crates/binfarce_c/src/lib.rt, by tools/erase.

//! The library for C and C++: `binfarce.h` declares the exports, and has the rules for callers.
//!
//! Each export calls functions of `binfarce`, `binfarce_elf`, `binfarce_foreign`, `binfarce_sections` or
//! `binfarce_tools`, and its clauses are theirs, over numbers and buffers.

pub mod buffer;
pub mod functions;
pub mod headers;
pub mod names;
pub mod sections;
pub mod status;
pub mod texts;
