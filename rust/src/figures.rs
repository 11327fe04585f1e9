//! Listings in an order, sums by a key, and how they differ between two files: what [`Tables::rows_to`], [`Tables::figures_to`] and
//! [`Tables::changes_to`] take and return.
//!
//! # Examples
//!
//! The largest function with its stored name, and how much the crates grew:
//!
//! ```
//! use binfarce::figures::{Figures, Key, Layout, Naming, Order, Shown};
//! use binfarce::{Selection, SymbolTable, Tables};
//!
//! # let path = concat!(env!("CARGO_MANIFEST_DIR"), "/samples/elf64-little.bin");
//! let file = std::fs::read(path)?;
//! let tables = Tables::new(&file, Selection::Section(".text"), SymbolTable::Symtab)?;
//! let shown = Shown::new().with_order(Order::Size).with_first(1).with_naming(Naming::Stored).without_total();
//! let mut text = Vec::new();
//! tables.rows_to(&shown, Layout::Lines, &mut text)?;
//! assert_eq!(text, b"0000000000001000         16 _ZN3foo3barE\n");
//!
//! let figures = Figures::by(Key::Crate).with_std_joined();
//! let growth = tables.changes_to(&tables, &figures, Layout::Lines, std::io::stdout())?;
//! assert_eq!((growth.old, growth.new), (16, 16));
//! # Ok::<(), Box<dyn std::error::Error>>(())
//! ```
//!
//! [`Tables::rows_to`]: crate::Tables#method.rows_to
//! [`Tables::figures_to`]: crate::Tables#method.figures_to
//! [`Tables::changes_to`]: crate::Tables#method.changes_to

use crate::erased::binfarce_figures::key;
#[cfg(feature = "std")]
use crate::erased::binfarce_figures::{diff, rows, sums};
#[cfg(feature = "std")]
use crate::erased::binfarce_rows::json;

pub use crate::erased::binfarce_figures::key::Key;
pub use crate::erased::binfarce_figures::order::Order;
pub use crate::erased::binfarce_figures::rows::Naming;

/// What a listing shows. By default it is the text of [`Tables::list_to`](crate::Tables#method.list_to).
///
/// # Examples
///
/// ```
/// use binfarce::figures::{Naming, Order, Shown};
///
/// let shown = Shown::new().with_order(Order::Size).with_first(10);
/// assert_eq!((shown.order, shown.first, shown.naming), (Some(Order::Size), Some(10), Naming::Trimmed));
/// ```
#[derive(Debug, Clone, Copy, PartialEq, Eq, Hash)]
#[non_exhaustive]
pub struct Shown {
    /// What its lines are sorted by; `None` for the order of [`Tables::list_to`](crate::Tables#method.list_to).
    pub order: Option<Order>,
    /// How many lines it has at most; `None` for all.
    pub first: Option<usize>,
    /// What is shown of a name.
    pub naming: Naming,
    /// Whether the listing of a section ends with the section's size.
    pub has_total: bool,
}

impl Shown {
    /// Returns what is shown by default: all lines in the order of [`Tables::list_to`](crate::Tables#method.list_to), trimmed
    /// names, and the section's size.
    #[must_use]
    pub fn new() -> Self {
        Shown { order: None, first: None, naming: Naming::Trimmed, has_total: true }
    }

    /// Sorts the lines.
    #[must_use]
    pub fn with_order(self, order: Order) -> Self {
        Shown { order: Some(order), ..self }
    }

    /// Sets how many lines there are at most.
    #[must_use]
    pub fn with_first(self, first: usize) -> Self {
        Shown { first: Some(first), ..self }
    }

    /// Sets what is shown of a name.
    #[must_use]
    pub fn with_naming(self, naming: Naming) -> Self {
        Shown { naming, ..self }
    }

    /// Leaves out the section's size.
    #[must_use]
    pub fn without_total(self) -> Self {
        Shown { has_total: false, ..self }
    }

    #[cfg(feature = "std")]
    pub(crate) fn into_erased(self) -> rows::Shown {
        let Shown { order, first, naming, has_total } = self;
        rows::Shown { order, first, naming, has_total }
    }
}

impl Default for Shown {
    fn default() -> Self {
        Shown::new()
    }
}

/// How sizes are grouped.
///
/// # Examples
///
/// ```
/// use binfarce::figures::{Grouping, Key};
///
/// let grouping = Grouping::by(Key::Crate).with_std_joined();
/// assert!(grouping.joins_std && grouping != Key::Crate.into());
/// ```
#[derive(Debug, Clone, Copy, PartialEq, Eq, Hash)]
#[non_exhaustive]
pub struct Grouping {
    /// What they are summed by.
    pub key: Key,
    /// Whether the functions of the crates that Rust's standard library alone has have the key `[std]`.
    pub joins_std: bool,
}

impl Grouping {
    /// Returns the grouping by a key, in which Rust's standard library isn't joined.
    #[must_use]
    pub fn by(key: Key) -> Self {
        Grouping { key, joins_std: false }
    }

    /// Joins the functions of the crates that Rust's standard library alone has, such as `core`, under the key `[std]`.
    #[must_use]
    pub fn with_std_joined(self) -> Self {
        Grouping { joins_std: true, ..self }
    }

    pub(crate) fn into_erased(self) -> key::Grouping {
        let Grouping { key, joins_std } = self;
        key::Grouping { key, joins_std }
    }
}

impl From<Key> for Grouping {
    fn from(key: Key) -> Self {
        Grouping::by(key)
    }
}

/// Which sums are written.
///
/// # Examples
///
/// ```
/// use binfarce::figures::{Figures, Key};
///
/// let figures = Figures::by(Key::Generic).with_first(10).with_percent();
/// assert_eq!((figures.grouping.key, figures.first, figures.has_percent), (Key::Generic, Some(10), true));
/// ```
#[derive(Debug, Clone, Copy, PartialEq, Eq, Hash)]
#[non_exhaustive]
pub struct Figures {
    /// What they are summed by.
    pub grouping: Grouping,
    /// How many lines there are at most before the one that sums up all others; `None` for all.
    pub first: Option<usize>,
    /// Whether each line has its share of the whole, in per cent.
    pub has_percent: bool,
}

impl Figures {
    /// Returns all sums by a key, or by a [`Grouping`], without per cent.
    pub fn by(grouping: impl Into<Grouping>) -> Self {
        Figures { grouping: grouping.into(), first: None, has_percent: false }
    }

    /// Joins the functions of Rust's standard library, as [`Grouping::with_std_joined`] does.
    #[must_use]
    pub fn with_std_joined(self) -> Self {
        Figures { grouping: self.grouping.with_std_joined(), ..self }
    }

    /// Sets how many lines there are at most before the one that sums up all others.
    #[must_use]
    pub fn with_first(self, first: usize) -> Self {
        Figures { first: Some(first), ..self }
    }

    /// Gives each line its share of the whole, in per cent.
    #[must_use]
    pub fn with_percent(self) -> Self {
        Figures { has_percent: true, ..self }
    }

    #[cfg(feature = "std")]
    pub(crate) fn into_erased(self) -> sums::Figures {
        let Figures { grouping, first, has_percent } = self;
        sums::Figures { grouping: grouping.into_erased(), first, has_percent }
    }
}

/// How rows are written.
#[derive(Debug, Clone, Copy, PartialEq, Eq, Hash)]
#[non_exhaustive]
pub enum Layout<'a> {
    /// As lines of text.
    Lines,
    /// As JSON objects, a line each.
    Objects {
        /// The file's name, which each object has as its member `file`.
        file: &'a str,
        /// The name of the section, which each object has where one is selected.
        section: &'a str,
    },
}

#[cfg(feature = "std")]
impl<'a> Layout<'a> {
    pub(crate) fn into_erased(self) -> json::Form<'a> {
        match self {
            Layout::Lines => json::Form::Lines,
            Layout::Objects { file, section } => json::Form::Objects(file, section),
        }
    }
}

/// The sums of all sizes of two files, in bytes: the answer of [`Tables::changes_to`](crate::Tables#method.changes_to).
#[derive(Debug, Clone, Copy, PartialEq, Eq, Hash)]
#[non_exhaustive]
pub struct Growth {
    /// The old file's sum.
    pub old: u64,
    /// The new file's sum.
    pub new: u64,
}

impl Growth {
    #[cfg(feature = "std")]
    pub(crate) fn of(growth: diff::Growth) -> Self {
        Growth { old: growth.old, new: growth.new }
    }
}
