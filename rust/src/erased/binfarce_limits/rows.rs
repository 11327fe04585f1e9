// From crates/binfarce_limits/src/rows.rt, by tools/erase.

//! Which rows are above their limits, and which limits have no row.

use crate::shim::{String, Vec};
use crate::erased::binfarce_limits::excess::{Counted, Excess, excess_of};
use crate::erased::binfarce_words::takes::Limit;
use crate::shim::alloc::{AllocError, Global};
use core::fmt;

/// A row's name, and the most that is allowed of it.
#[derive(Debug, Clone, Copy, PartialEq)]
pub struct RowLimit<'a> {
    /// The name.
    pub name: &'a str,
    /// The most.
    pub limit: Limit,
}

/// What is counted for rows, by their names.
pub trait Rows {
    /// What is counted for the row of this name. `None` if there is none.
    fn counted(&self, name: &str) -> Option<Counted>;
}

/// A finding on a limit: its row is above it, or there is no such row.
#[derive(Debug)]
pub struct Finding {
    /// The row's name.
    pub name: String,
    /// The limit.
    pub limit: Limit,
    /// What is more than it. `None` if no row has the name.
    pub excess: Option<Excess>,
}

impl fmt::Display for Finding {
    fn fmt(&self, f: &mut fmt::Formatter<'_>) -> fmt::Result {
        match &self.excess {
            Some(excess) => write!(
                f,
                "{} {excess}, and --limits allows {}",
                self.name, self.limit
            ),
            None => write!(f, "no row is named {}, which --limits names", self.name),
        }
    }
}

/// The findings on limits, in their order: one on each whose row is above it, and on each that has no row.
///
/// # Errors
///
/// `AllocError` if an allocation fails.
pub fn judge<R: Rows>(
    alloc: Global,
    limits: &[RowLimit<'_>],
    rows: &R,
) -> Result<Vec<Finding>, AllocError> {
    let mut found = Vec::new(alloc);
    for limit in limits {
        push_judged(alloc, &mut found, rows.counted(limit.name), *limit)?;
    }
    Ok(found)
}

// Adds the finding on a limit, if there is one, by what is counted for its row.
fn push_judged(
    alloc: Global,
    found: &mut Vec<Finding>,
    counted: Option<Counted>,
    limit: RowLimit<'_>,
) -> Result<(), AllocError> {
    let RowLimit { name, limit } = limit;
    let excess = match counted {
        Some(counted) => match excess_of(counted, limit) {
            Some(excess) => Some(excess),
            None => return Ok(()),
        },
        None => None,
    };
    let name = String::from_str(alloc, name)?;
    found.push(Finding {
        name,
        limit,
        excess,
    })?;
    Ok(())
}

/// Whether one of these says that a row is above its limit.
pub fn are_above(found: &[Finding]) -> bool {
    found.iter().any(|finding| finding.excess.is_some())
}
