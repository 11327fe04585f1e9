// From crates/binfarce_image/src/image/parts.rt, by tools/erase.

//! Checks and lengths of an image's parts.

use crate::shim::to_usize;
use super::tables::Class;
use super::{Image, Part};

const SHT_SYMTAB: u32 = 2;

/// Exactly one symbol table, and no byte section of its kind.
pub(super) fn has_one_table(parts: &[Part]) -> bool {
    count_tables(parts) == 1 && !any_claims_table(parts)
}

fn count_tables(parts: &[Part]) -> usize {
    parts.iter().filter(|part| is_table(part)).count()
}

fn any_claims_table(parts: &[Part]) -> bool {
    parts.iter().any(|part| claims_table(part))
}

fn is_table(part: &Part) -> bool {
    match part {
        Part::Bytes { .. } => false,
        Part::Table { .. } => true,
    }
}

fn claims_table(part: &Part) -> bool {
    match part {
        Part::Bytes { kind, .. } => *kind == SHT_SYMTAB,
        Part::Table { .. } => false,
    }
}

/// The section names are in a byte section.
pub(super) fn has_names(image: &Image) -> bool {
    match image.parts.get(to_usize(image.names_at)) {
        Some(Part::Bytes { .. }) => true,
        _ => false,
    }
}

/// Where the bodies end, or `usize::MAX` on overflow.
pub(super) fn bodies_end(parts: &[Part], class: Class) -> usize {
    let mut end = class.header_length;
    for part in parts {
        end = end.saturating_add(body_length(part, class));
    }
    end
}

/// How many bytes a part has in a file, or `usize::MAX` on overflow.
pub(super) fn body_length(part: &Part, class: Class) -> usize {
    match part {
        Part::Bytes { body, .. } => body.len(),
        Part::Table { rows, .. } => rows.len().saturating_mul(class.symbol_length),
    }
}

/// The length of a table's row, and else 0.
pub(super) fn entry_length(part: &Part, class: Class) -> usize {
    match part {
        Part::Bytes { .. } => 0,
        Part::Table { .. } => class.symbol_length,
    }
}

pub(super) fn name(part: &Part) -> u32 {
    match part {
        Part::Bytes { name, .. } => *name,
        Part::Table { name, .. } => *name,
    }
}

pub(super) fn kind(part: &Part) -> u32 {
    match part {
        Part::Bytes { kind, .. } => *kind,
        Part::Table { .. } => SHT_SYMTAB,
    }
}

pub(super) fn link(part: &Part) -> u32 {
    match part {
        Part::Bytes { link, .. } => *link,
        Part::Table { link, .. } => *link,
    }
}
