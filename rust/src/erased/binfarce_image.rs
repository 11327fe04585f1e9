// From crates/binfarce_image/src/lib.rt, by tools/erase.

//! Images of small ELF files, and the files that they are laid out in.

pub mod image;
