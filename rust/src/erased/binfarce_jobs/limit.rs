// From crates/binfarce_jobs/src/limit.rt, by tools/erase.

//! Limits on sums, and what work on files came to.

use crate::erased::binfarce_jobs::hint::Hint;
use crate::erased::binfarce_figures::diff::Growth;
use crate::erased::binfarce_limits::excess::{Counted, Excess, excess_of};
use crate::erased::binfarce_limits::rows::{Finding, are_above};
use crate::erased::binfarce_words::takes::Limit;

/// What work on files came to.
#[derive(Debug, Clone, Copy, PartialEq)]
pub struct Verdict {
    /// Whether no file was refused.
    pub is_done: bool,
    /// Whether a sum exceeds its limit.
    pub is_above: bool,
}

impl Verdict {
    /// The work is done, and no sum exceeds its limit.
    pub fn done() -> Verdict {
        Verdict {
            is_done: true,
            is_above: false,
        }
    }

    /// A file was refused.
    pub fn refused() -> Verdict {
        Verdict {
            is_done: false,
            is_above: false,
        }
    }

    /// What this work and other work came to.
    pub fn and_then(self, other: Verdict) -> Verdict {
        Verdict {
            is_done: self.is_done && other.is_done,
            is_above: self.is_above || other.is_above,
        }
    }
}

/// The hint on a sum that is more than this limit, or 0, if there is one: where nothing is counted no limit is held. A
/// limit in per cent is one on growth.
pub fn above(sum: u64, limit: Option<Limit>) -> Option<Hint> {
    match limit {
        Some(Limit::Bytes(_)) if sum == 0 => Some(Hint::Nothing),
        Some(limit) => exceeded(excess_of(Counted::Size(sum), limit), limit),
        None => None,
    }
}

/// The hint on a sum that grew by more than this limit, or is 0 now, if there is one: where the limit is in per cent of an
/// old sum, also by how many per cent it grew.
pub fn grown(growth: Growth, limit: Option<Limit>) -> Option<Hint> {
    let limit = limit?;
    match excess_of(Counted::Growth(growth.old, growth.new), limit) {
        None if growth.new == 0 => Some(Hint::Nothing),
        excess => exceeded(excess, limit),
    }
}

// The hint on what is more than this limit, if anything is.
fn exceeded(excess: Option<Excess>, limit: Limit) -> Option<Hint> {
    match excess {
        Some(excess) => Some(Hint::Excess(excess, limit)),
        None => None,
    }
}

/// Whether a sum exceeds its limit, by the hint on that, or a row does.
pub fn exceeds(excess: &Option<Hint>, rows: &[Finding]) -> bool {
    excess.is_some() || are_above(rows)
}
