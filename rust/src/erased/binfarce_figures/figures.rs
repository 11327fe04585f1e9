// From crates/binfarce_figures/src/figures.rt, by tools/erase.

//! Two numbers for each key, and the rows that show them.

use crate::shim::{String, Vec};
use crate::erased::binfarce_figures::key::Key;
use crate::erased::binfarce_figures::sums::{Figures, Numbers};
use crate::erased::binfarce_rows::columns::{
    count_of, hundredths, push_change, push_growth, push_growth_member, push_percent_member,
    push_signed_member, push_size,
};
use crate::erased::binfarce_rows::json::{Form, push_number_member, push_start, push_text_member};
use crate::shim::alloc::{AllocError, Global};
use core::cmp::Reverse;
use crate::shim::collections::BTreeMap;

/// A key, with two numbers that are counted for it.
#[derive(Debug, Clone, Copy)]
pub struct Figure<'a> {
    /// The key.
    pub name: &'a str,
    /// The sum of the sizes of its function symbols; of two files, in the old one.
    pub sum: u64,
    /// How many function symbols have it; of two files, the sum of their sizes in the new one.
    pub other: u64,
}

/// What the numbers of figures are, and so what their rows show.
#[derive(Debug, Clone, Copy, PartialEq)]
pub enum Columns {
    /// A sum, which is a share of this whole, and a number of function symbols.
    Sums(u64),
    /// The sums in two files.
    Changes,
}

/// How figures are shown.
pub(crate) struct Layout<'a> {
    pub alloc: Global,
    pub figures: &'a Figures,
    pub form: Form<'a>,
    pub columns: Columns,
}

impl Layout<'_> {
    /// The rows of the first figures of keys with these numbers, and the one that sums up all others.
    pub(crate) fn rows(&self, numbers: &BTreeMap<String, Numbers>) -> Result<String, AllocError> {
        let mut rows = self.figures_of(numbers)?;
        rows.sort_by_key(|row| Reverse(rank(self.columns, row.sum, row.other)))?;
        self.first_rows(&rows)
    }

    // The figures of keys with these numbers, in the order of the keys' bytes.
    fn figures_of<'b>(
        &self,
        numbers: &'b BTreeMap<String, Numbers>,
    ) -> Result<Vec<Figure<'b>>, AllocError> {
        let mut figures = Vec::new(self.alloc);
        for (name, pair) in numbers.iter() {
            let name = name.as_str();
            let Numbers { sum, other } = *pair;
            if has_row(self.columns, sum, other) {
                figures.push(Figure { name, sum, other })?;
            }
        }
        Ok(figures)
    }

    // The rows of the first figures, and the one that sums up all others.
    fn first_rows(&self, rows: &[Figure<'_>]) -> Result<String, AllocError> {
        let count = count_of(self.figures.first, rows.len());
        let mut text = String::new(self.alloc);
        for row in &rows[..count] {
            self.push_row(&mut text, *row)?;
        }
        if count < rows.len() {
            self.push_others(&mut text, &rows[count..])?;
        }
        Ok(text)
    }

    // Appends the row that sums up these figures.
    fn push_others(&self, text: &mut String, rows: &[Figure<'_>]) -> Result<(), AllocError> {
        let mut label = String::new(self.alloc);
        write!(label, "[{} others]", rows.len())?;
        let name = label.as_str();
        let sum = rows.iter().map(|row| row.sum).sum();
        let other = rows.iter().map(|row| row.other).sum();
        self.push_row(text, Figure { name, sum, other })
    }

    /// Appends the row of a figure.
    pub(crate) fn push_row(&self, text: &mut String, figure: Figure<'_>) -> Result<(), AllocError> {
        let Figure { name, sum, other } = figure;
        match self.form {
            Form::Lines => {
                self.push_columns(text, sum, other)?;
                text.push_str(name)?;
                text.push_str("\n")
            }
            Form::Objects(file, _) => {
                push_start(text, file)?;
                push_text_member(text, "name", Some(name))?;
                self.push_members(text, sum, other)?;
                text.push_str("}\n")
            }
        }
    }

    // Appends what a line shows of two numbers.
    fn push_columns(&self, text: &mut String, sum: u64, other: u64) -> Result<(), AllocError> {
        push_size(text, sum)?;
        match self.columns {
            Columns::Sums(whole) => {
                self.push_percent(text, sum, whole)?;
                push_copies(text, self.figures.grouping.key, other)
            }
            Columns::Changes => {
                push_size(text, other)?;
                push_change(self.alloc, text, u128::from(sum), u128::from(other))?;
                push_growth(self.alloc, text, self.figures.has_percent, sum, other)
            }
        }
    }

    // Appends the share of a size in the whole, if it is wanted.
    fn push_percent(&self, text: &mut String, size: u64, whole: u64) -> Result<(), AllocError> {
        if self.figures.has_percent {
            let share = hundredths(size, whole);
            let per_cent = share / 100;
            write!(text, "{per_cent:>3}.{}{}% ", share / 10 % 10, share % 10)?;
        }
        Ok(())
    }

    // Appends the members of two numbers.
    fn push_members(&self, text: &mut String, sum: u64, other: u64) -> Result<(), AllocError> {
        match self.columns {
            Columns::Sums(whole) => {
                push_number_member(text, "size", sum)?;
                push_number_member(text, "copies", other)?;
                self.push_share_member(text, sum, whole)
            }
            Columns::Changes => {
                push_number_member(text, "old", sum)?;
                push_number_member(text, "new", other)?;
                push_signed_member(text, "change", u128::from(sum), u128::from(other))?;
                push_growth_member(text, self.figures.has_percent, sum, other)
            }
        }
    }

    // Appends the member of the share of a size in the whole, if it is wanted.
    fn push_share_member(&self, text: &mut String, size: u64, whole: u64) -> Result<(), AllocError> {
        if !self.figures.has_percent {
            return Ok(());
        }
        push_percent_member(text, "", hundredths(size, whole))
    }
}

// Whether a figure has a row: of changes, whether its sums differ.
fn has_row(columns: Columns, sum: u64, other: u64) -> bool {
    columns != Columns::Changes || sum != other
}

// What figures are sorted by: their sums; those of changes by how much they differ.
fn rank(columns: Columns, sum: u64, other: u64) -> u64 {
    match columns {
        Columns::Sums(_) => sum,
        Columns::Changes => sum.abs_diff(other),
    }
}

// Appends the count of copies, where generic functions are summed.
fn push_copies(text: &mut String, key: Key, copies: u64) -> Result<(), AllocError> {
    match key {
        Key::Generic => write!(text, "{copies:>6} "),
        _ => Ok(()),
    }
}
