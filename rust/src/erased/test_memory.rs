// From crates/test_memory/src/main.rt, by tools/erase.

//! Calls in which one allocation fails: each row gives its whole answer, and at most one row is out of memory.
//! `refused.sh` runs the program with each allocation of the rows failing in turn.
//!
//! Standard input has the name of a group of rows, a space, and the number of their allocation that is to fail. The
//! toolchain lets the one of the same number fail in every run, `FAILED`; so many others are made before the rows that
//! it is theirs. As many are made after the rows: if one of those fails, none of the rows' did, and then every row has
//! to give its whole answer. With the number 0 no allocation fails; there `all` is every group, and the reading of a
//! file.

pub(crate) mod addresses;
pub(crate) mod counts;
pub(crate) mod expected;
pub(crate) mod files;
pub(crate) mod listings;
pub(crate) mod names;
pub(crate) mod readers;
pub(crate) mod readings;
pub(crate) mod refusals;
pub(crate) mod sections;
pub(crate) mod streams;
pub(crate) mod symbols;
pub(crate) mod without_allocation;
pub(crate) mod words;

use crate::shim::{HostRuntime, Vec};
use crate::shim::alloc::{AllocError, Global};
use crate::shim::io::Read;
use std::process::ExitCode;
use crate::erased::test_image_samples::tally::Tally;

// The number of the allocation that fails.
const FAILED: usize = 2000;

// The status where the rows make fewer allocations than the number.
const NONE_FAILED: u8 = 3;

// The status where standard input names no rows, or has no number.
const NO_ROWS: u8 = 2;

const GROUPS: [&str; 17] = [
    "listings",
    "reports",
    "symbols",
    "names",
    "kept",
    "trimmed",
    "crates",
    "tuples",
    "addresses",
    "sections",
    "readings",
    "files",
    "unfit_images",
    "refusals",
    "truncated",
    "counts",
    "without_allocation",
];

pub fn main(rt: HostRuntime) -> ExitCode {
    let mut line = [0; 80];
    match asked(&rt, &mut line) {
        None => ExitCode::from(NO_ROWS),
        Some((group, 0)) => ended_without_failure(&rt, group),
        Some((group, number)) => {
            if allocate(rt.alloc(), FAILED.saturating_sub(number)).is_err() {
                return ExitCode::from(NO_ROWS);
            }
            ended(&rt, group)
        }
    }
}

// The group that standard input names, and the number that it has, up to `FAILED`.
fn asked<'a>(rt: &HostRuntime, line: &'a mut [u8; 80]) -> Option<(&'a str, usize)> {
    let len = rt.stdin().read(line).ok()?;
    let text = core::str::from_utf8(line.get(..len)?).ok()?;
    let (group, number) = text.trim_end().split_once(' ')?;
    let number = number.parse().ok()?;
    if number > FAILED {
        None
    } else {
        Some((group, number))
    }
}

// Makes as many allocations, one after another.
fn allocate(alloc: Global, count: usize) -> Result<(), AllocError> {
    for _ in 0..count {
        let mut bytes = Vec::new(alloc);
        bytes.push(0u8)?;
    }
    Ok(())
}

// How the program ends after the rows of this group, one of whose allocations may have failed.
fn ended(rt: &HostRuntime, group: &str) -> ExitCode {
    match tally_of(rt.alloc(), group) {
        None => ExitCode::from(NO_ROWS),
        Some(tally) => {
            let has_failed = allocate(rt.alloc(), FAILED).is_ok();
            if !is_right(rt, &tally, has_failed) {
                ExitCode::FAILURE
            } else if has_failed {
                ExitCode::SUCCESS
            } else {
                ExitCode::from(NONE_FAILED)
            }
        }
    }
}

// How the program ends after the rows of this group, or of all, where no allocation fails.
fn ended_without_failure(rt: &HostRuntime, group: &str) -> ExitCode {
    let mut has_rows = false;
    for name in &GROUPS {
        if group == *name || group == "all" {
            has_rows = true;
            if !has_whole_answers(rt, name) {
                return ExitCode::FAILURE;
            }
        }
    }
    if !has_rows {
        ExitCode::from(NO_ROWS)
    } else if group == "all" && !readings::is_read(rt) {
        let _ = rt.println(format_args!("a file is read otherwise than its bytes"));
        ExitCode::FAILURE
    } else {
        ExitCode::SUCCESS
    }
}

fn has_whole_answers(rt: &HostRuntime, group: &str) -> bool {
    match tally_of(rt.alloc(), group) {
        None => false,
        Some(tally) => {
            let is_right = is_right(rt, &tally, false);
            if is_right {
                let _ = rt.println(format_args!("{group}: {} whole answers", tally.rows));
            }
            is_right
        }
    }
}

// Whether no row is wrong; the first one that is wrong is named.
fn is_right(rt: &HostRuntime, tally: &Tally, has_failed: bool) -> bool {
    match tally.first_wrong(has_failed) {
        None => true,
        Some((row, how)) => {
            let _ = rt.println(format_args!("{row}: {how}"));
            false
        }
    }
}

// What the rows of this group gave; `None` if there is no such group.
fn tally_of(alloc: Global, group: &str) -> Option<Tally> {
    let mut tally = Tally::new();
    match group {
        "listings" => listings::add_listings(alloc, &mut tally),
        "reports" => listings::add_reports(alloc, &mut tally),
        "symbols" => symbols::add_symbols(alloc, &mut tally),
        "names" => names::add_names(alloc, &mut tally, false),
        "kept" => names::add_names(alloc, &mut tally, true),
        "trimmed" => names::add_trimmed(alloc, &mut tally),
        "crates" => names::add_crates(alloc, &mut tally),
        "tuples" => names::add_tuples(alloc, &mut tally),
        "addresses" => addresses::add_addresses(alloc, &mut tally),
        "sections" => sections::add_sections(alloc, &mut tally),
        "readings" => readings::add_readings(alloc, &mut tally),
        "files" => files::add_files(alloc, &mut tally),
        "unfit_images" => files::add_unfit_images(alloc, &mut tally),
        "refusals" => refusals::add_refusals(alloc, &mut tally),
        "truncated" => refusals::add_truncated(alloc, &mut tally),
        "counts" => counts::add_counts(alloc, &mut tally),
        "without_allocation" => without_allocation::add_calls(&mut tally),
        _ => return None,
    }
    Some(tally)
}
