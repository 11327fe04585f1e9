// From crates/binfarce_rows/src/lib.rt, by tools/erase.

//! What rows are made of: columns, and the members of JSON objects; and addresses as words.

pub mod address;
pub mod columns;
pub mod head;
pub mod json;
