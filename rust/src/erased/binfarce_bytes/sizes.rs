// From crates/binfarce_bytes/src/sizes.rt, by tools/erase.

//! Sizes where a format stores none: rows arranged by address, and the least address above each.

use crate::shim::Vec;
use crate::shim::alloc::{AllocError, Global};

/// The address of a row of a symbol table, and the row's index.
#[derive(Clone, Copy, PartialEq, Eq, PartialOrd, Ord)]
pub struct RowAddress {
    pub address: u64,
    /// The row's index: in Mach-O in the symbol table, in PE among the rows that are kept. Rows later in the table have
    /// greater ones.
    pub index: usize,
}

/// Rows in the order of their addresses.
pub struct Arranged {
    /// The rows, in the order of (address, index).
    pub rows: Vec<RowAddress>,
    /// For each row, the least address above its own, if any.
    pub above: Vec<Option<u64>>,
    /// How many rows the search for these addresses visited.
    pub visited: usize,
}

/// Puts the rows in the order of their addresses, and finds the least address above each. The only error is a failed
/// allocation.
pub fn arrange(alloc: Global, rows: Vec<RowAddress>) -> Result<Arranged, AllocError> {
    let mut rows = rows;
    put_in_order(&mut rows);
    let Swept { above, visited } = sweep(alloc, &rows)?;
    Ok(Arranged {
        rows,
        above,
        visited,
    })
}

// Puts the rows in the order of (address, index). Nothing is allocated.
fn put_in_order(rows: &mut Vec<RowAddress>) {
    rows.sort_unstable();
}

// The result of one walk over arranged rows.
struct Swept {
    above: Vec<Option<u64>>,
    visited: usize,
}

// The least address above each of the rising addresses, in one walk from the back.
//
// The walk keeps the least address above the current one.
fn sweep(alloc: Global, rows: &[RowAddress]) -> Result<Swept, AllocError> {
    let mut above = Vec::filled(alloc, None, rows.len())?;
    let mut visited = 0;
    let mut greater = None;
    for place in (0..rows.len()).rev() {
        if place + 1 < rows.len() && rows[place].address < rows[place + 1].address {
            greater = Some(rows[place + 1].address);
        }
        above[place] = greater;
        visited += 1;
    }
    Ok(Swept { above, visited })
}
