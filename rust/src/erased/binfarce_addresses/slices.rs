// From crates/binfarce_addresses/src/slices.rt, by tools/erase.

//! Hints for the search of an address's span.

use crate::shim::{Vec, to_usize};
use crate::erased::binfarce_addresses::ranges::Span;
use crate::shim::alloc::{AllocError, Global};

/// Slices of the addresses, all of one length, each with the last span that begins before it. Callers check these
/// hints.
pub(crate) struct Slices {
    first: u64,
    // A slice has 2^shift addresses.
    shift: u32,
    before: Vec<u32>,
}

impl Slices {
    /// The slices of spans in the order of their addresses. The only error is a failed allocation.
    pub(crate) fn new(alloc: Global, spans: &[Span]) -> Result<Slices, AllocError> {
        let first = spans.get(1).map_or(0, |span| span.start);
        let last = spans.last().map_or(0, |span| span.start);
        // The slices are as many as the spans, or half as many.
        let each = last.saturating_sub(first) / (spans.len() as u64).max(1);
        let mut slices = Slices {
            first,
            shift: (u64::BITS - each.leading_zeros()).min(63),
            before: Vec::new(alloc),
        };
        for (k, span) in spans.iter().enumerate() {
            let before = u32::try_from(k.saturating_sub(1)).unwrap_or(u32::MAX);
            let slice = slices.slice_of(span.start);
            slices.before.resize(slice.saturating_add(1), before)?;
        }
        Ok(slices)
    }

    /// The place of the address's span, if the spans are those that the slices are of.
    #[cfg_attr(not(debug_assertions), inline(always))]
    pub(crate) fn near(&self, spans: &[Span], address: u64) -> Option<usize> {
        let slice = self.slice_of(address);
        let from = to_usize(*self.before.get(slice)?);
        let to = to_usize(*self.before.get(slice.wrapping_add(1))?);
        let among = spans.get(from..to.wrapping_add(1))?;
        let next = among.partition_point(|span| span.start <= address);
        from.wrapping_add(next).checked_sub(1)
    }

    #[cfg_attr(not(debug_assertions), inline(always))]
    fn slice_of(&self, address: u64) -> usize {
        let slice = address.saturating_sub(self.first).wrapping_shr(self.shift);
        usize::try_from(slice).unwrap_or(usize::MAX)
    }
}
