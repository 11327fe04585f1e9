// From crates/binfarce_addresses/src/ranges.rt, by tools/erase.

//! Lookup of the range that holds an address.

use crate::shim::Vec;
use crate::erased::binfarce_addresses::slices::Slices;
use crate::shim::alloc::{AllocError, Global};
use core::cmp::Reverse;

/// A range of addresses: its first one, and how many bytes it has.
#[derive(Debug, Clone, Copy, PartialEq)]
pub struct AddressRange {
    pub address: u64,
    pub size: u64,
}

/// The addresses from `start` up to the next span, and the index of the range that `find` gives for them, if any.
#[derive(Debug, Clone, Copy, PartialEq)]
pub struct Span {
    pub start: u64,
    pub place: Option<usize>,
}

/// Ranges, as disjoint spans in the order of their addresses: for n ranges at most 2n + 1.
///
/// Clauses see the spans.
pub struct Ranges {
    spans: Vec<Span>,
    slices: Slices,
}

// A range's address, its place, and the last address that it holds. Rows are in the order of their addresses, those of
// one address from the last place to the first: of those that hold an address, the last one is found there.
#[derive(Clone, Copy, PartialEq, Eq, PartialOrd, Ord)]
struct Row {
    address: u64,
    place: Reverse<usize>,
    last: u64,
}

impl Ranges {
    /// Arranges the ranges. The only error is a failed allocation.
    pub fn new(alloc: Global, ranges: &[AddressRange]) -> Result<Ranges, AllocError> {
        let rows = rows_of(alloc, ranges)?;
        let spans = spans_of(alloc, &rows)?;
        let slices = Slices::new(alloc, &spans)?;
        Ok(Ranges { spans, slices })
    }

    /// The index of the range that holds the address: of several, the one that begins last, and of these the first.
    /// `None` if none does.
    pub fn find(&self, address: u64) -> Option<usize> {
        match self.slices.near(&self.spans, address) {
            Some(place) if self.is_at(place, address) => self.spans[place].place,
            _ => self.spans[self.spans.partition_point(|span| span.start <= address) - 1].place,
        }
    }

    // Whether the span at the place is that at the address.
    #[cfg_attr(not(debug_assertions), inline(always))]
    fn is_at(&self, place: usize, address: u64) -> bool {
        place < self.spans.len()
            && self.spans[place].start <= address
            && (place + 1 == self.spans.len() || address < self.spans[place + 1].start)
    }
}

// The rows of the ranges, in their order.
fn rows_of(alloc: Global, ranges: &[AddressRange]) -> Result<Vec<Row>, AllocError> {
    let mut rows = Vec::with_capacity(alloc, ranges.len())?;
    for (place, range) in ranges.iter().enumerate() {
        rows.push(Row {
            address: range.address,
            place: Reverse(place),
            last: range.address.saturating_add(range.size.max(1) - 1),
        })?;
    }
    rows.sort_unstable();
    Ok(rows)
}

// The spans of the rows, by one sweep.
fn spans_of(alloc: Global, rows: &[Row]) -> Result<Vec<Span>, AllocError> {
    let stack = Vec::new(alloc);
    let mut spans = Vec::with_capacity(alloc, rows.len())?;
    spans.push(Span {
        start: 0,
        place: None,
    })?;
    let mut sweep = Sweep { stack, spans };
    for row in 0..rows.len() {
        sweep.close_before(rows, rows[row].address)?;
        sweep.open(rows, row)?;
    }
    sweep.close_before(rows, u64::MAX)?;
    Ok(sweep.spans)
}

// A sweep over the rows. A row is open from its address on, until it ends or a later row does that reaches as far: the
// open rows end one after the other, from the last one to the first.
struct Sweep {
    // The places of the open rows among the rows.
    stack: Vec<usize>,
    spans: Vec<Span>,
}

impl Sweep {
    // Closes the open rows that end before the address: from the end of each on, the next open one is found, or none.
    fn close_before(&mut self, rows: &[Row], address: u64) -> Result<(), AllocError> {
        while let Some(row) = self.innermost(rows) {
            if row.last >= address {
                break;
            }
            self.stack.pop();
            self.begin(rows, row.last + 1)?;
        }
        Ok(())
    }

    // Opens the next row. Open rows that it outlives are dropped: none of their addresses from here on finds them.
    fn open(&mut self, rows: &[Row], row: usize) -> Result<(), AllocError> {
        let Row { address, last, .. } = rows[row];
        while matches!(self.innermost(rows), Some(open) if open.last <= last) {
            self.stack.pop();
        }
        self.stack.push(row)?;
        self.begin(rows, address)
    }

    // Begins a span at an address, with the place of the last open row.
    fn begin(&mut self, rows: &[Row], start: u64) -> Result<(), AllocError> {
        let place = self.innermost(rows).map(|row| row.place.0);
        Ok(self.spans.push(Span { start, place })?)
    }

    // The last open row.
    fn innermost(&self, rows: &[Row]) -> Option<Row> {
        Some(rows[*self.stack.last()?])
    }
}
