// From crates/binfarce_chart/src/lib.rt, by tools/erase.

//! Sizes as a picture: a bar for each, in SVG.

pub mod bars;
pub mod svg;
