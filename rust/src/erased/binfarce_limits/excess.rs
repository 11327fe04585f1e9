// From crates/binfarce_limits/src/excess.rt, by tools/erase.

//! What is more than a limit.

use crate::erased::binfarce_rows::columns::hundredths;
use crate::erased::binfarce_words::takes::Limit;
use core::fmt;

/// What is counted.
#[derive(Debug, Clone, Copy, PartialEq)]
pub enum Counted {
    /// So many bytes.
    Size(u64),
    /// So many bytes in an old file, and so many in a new one.
    Growth(u64, u64),
}

/// What is more than a limit, in bytes.
#[derive(Debug, Clone, Copy, PartialEq)]
pub enum Excess {
    /// A sum.
    Has(u64),
    /// What a sum grew by.
    Grew(u64),
    /// What a sum grew by, also in hundredths of a per cent of the old sum.
    GrewBy(u64, u128),
}

impl fmt::Display for Excess {
    fn fmt(&self, f: &mut fmt::Formatter<'_>) -> fmt::Result {
        match self {
            Excess::Has(sum) => write!(f, "has {sum} bytes"),
            Excess::Grew(by) => write!(f, "grew by {by} bytes"),
            Excess::GrewBy(by, share) => {
                let per_cent = share / 100;
                write!(
                    f,
                    "grew by {by} bytes ({per_cent}.{}{}%)",
                    share / 10 % 10,
                    share % 10
                )
            }
        }
    }
}

/// What is more than this limit, if anything is: a size, or how much a sum grew. A limit in per cent is one on growth: no
/// size is above it.
pub fn excess_of(counted: Counted, limit: Limit) -> Option<Excess> {
    match (counted, limit) {
        (Counted::Size(sum), Limit::Bytes(most)) if sum > most as u64 => Some(Excess::Has(sum)),
        (Counted::Size(_), _) => None,
        (Counted::Growth(old, new), _) => by_growth(old, new.saturating_sub(old), limit),
    }
}

// What is more than a limit of what a sum grew by: where the limit is in per cent of an old sum, also by how many per cent
// it grew.
fn by_growth(old: u64, by: u64, limit: Limit) -> Option<Excess> {
    if is_above(old, by, limit) {
        Some(grew(old, by, limit))
    } else {
        None
    }
}

// What a sum grew by.
fn grew(old: u64, by: u64, limit: Limit) -> Excess {
    match limit {
        Limit::Percent(_) if old > 0 => Excess::GrewBy(by, hundredths(by, old)),
        _ => Excess::Grew(by),
    }
}

// Whether the growth of a sum by so many bytes is above the limit.
fn is_above(old: u64, by: u64, limit: Limit) -> bool {
    match limit {
        Limit::Bytes(most) => by > most as u64,
        Limit::Percent(most) => 100 * u128::from(by) > most as u128 * u128::from(old),
    }
}
