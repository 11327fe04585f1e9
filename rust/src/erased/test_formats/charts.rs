// From crates/test_formats/src/charts.rt, by tools/erase.

//! Pictures of sizes.

use crate::shim::{String, Vec};
use crate::erased::binfarce_chart::bars::Bar;
use crate::erased::binfarce_chart::svg::chart;
use crate::shim::alloc::{AllocError, Global};
use crate::erased::test_samples::cases::bytes_of;

// Bars whose sizes have a sum below 2^64.
struct Bars<'a> {
    list: Vec<Bar<'a>>,
    sum: u64,
}

impl<'a> Bars<'a> {
    fn new(alloc: Global) -> Bars<'a> {
        Bars {
            list: Vec::new(alloc),
            sum: 0,
        }
    }

    // Adds a bar of this size, or of the rest below 2^64.
    fn push(&mut self, name: &'a str, size: u64) -> Result<(), AllocError> {
        let size = size.min(u64::MAX - self.sum);
        self.list.push(Bar { name, size })?;
        self.sum += size;
        Ok(())
    }

    fn picture(
        &self,
        alloc: Global,
        section_size: Option<u64>,
        first: Option<usize>,
    ) -> Result<String, AllocError> {
        chart(alloc, "{path}", &self.list, section_size, first)
    }
}

/// The picture of the sizes in words, `SIZE=BYTES`, where the bytes are those of the name; and of a section of this
/// size, or without a number of all sections.
pub fn chart_of(alloc: Global, section_size: &str, words: &str) -> Result<String, AllocError> {
    let mut names = Vec::new(alloc);
    for word in words.split(' ') {
        if let Some((size, name)) = word.split_once('=') {
            let name = bytes_of(alloc, name)?.unwrap_or(Vec::new(alloc));
            names.push((size.parse().unwrap_or(0), name))?;
        }
    }
    let mut bars = Bars::new(alloc);
    for (size, name) in &names {
        bars.push(core::str::from_utf8(name).unwrap_or("no text"), *size)?;
    }
    bars.picture(alloc, section_size.parse().ok(), None)
}

/// How many rows the picture of so many bars has, of sizes from 1 on, of which so many are asked for; and how it goes on
/// after the beginning of the last row.
pub fn bars_of(alloc: Global, first: &str, count: &str) -> Result<String, AllocError> {
    let mut bars = Bars::new(alloc);
    for size in 0..count.parse().unwrap_or(0u64) {
        bars.push("a", size.saturating_add(1))?;
    }
    let picture = bars.picture(alloc, Some(0), first.parse().ok())?;
    let rows = picture.as_str().matches("<svg y=").count();
    let (_, last) = picture.as_str().rsplit_once("<svg y=").unwrap_or(("", ""));
    String::formatted(alloc, format_args!("{rows} rows, and the last {last}"))
}
