//! Readable names of symbols.
//!
//! A name is mangled in the legacy form (`_ZN..E`) or in v0 (`_R..`, RFC 2603). A v0 name that nests deeper than
//! [`MAX_LEVELS`] levels or takes more than [`MAX_STEPS`] steps to print has no readable form: [`SymbolName::kind`] is
//! [`Kind::Unknown`]. So no name uses up the stack or runs for long.
//!
//! # Examples
//!
//! ```
//! use binfarce::demangle::{Kind, SymbolName};
//!
//! let name = SymbolName::demangle("_ZN3foo3bar17h05af221e174051e9E");
//! assert_eq!(name.complete, "foo::bar::h05af221e174051e9");
//! assert_eq!(name.trimmed, "foo::bar");
//! assert_eq!(name.crate_name, None);
//! assert!(name.kind == Kind::Legacy);
//! ```

use crate::erased::binfarce_names::demangle as erased;
use crate::error::{OutOfMemory, out_of_memory};
use crate::shim;
use crate::shim::alloc::{AllocError, Global};
use alloc::string::String;
use core::fmt;

pub use erased::{Kind, MAX_LEVELS, MAX_STEPS};

/// `unknown`, `legacy` or `v0`.
impl fmt::Display for Kind {
    fn fmt(&self, f: &mut fmt::Formatter<'_>) -> fmt::Result {
        f.pad(match self {
            Kind::Unknown => "unknown",
            Kind::Legacy => "legacy",
            Kind::V0 => "v0",
        })
    }
}

/// A function symbol of a file, with its readable name.
#[derive(Debug, Clone, PartialEq, Eq, Hash)]
pub struct SymbolData {
    /// The name.
    pub name: SymbolName,
    /// The address as the file stores it. In a PE file it is the offset in bytes within the symbol's section.
    pub address: u64,
    /// The size in bytes.
    pub size: u64,
}

#[doc(hidden)]
impl From<erased::SymbolData> for SymbolData {
    fn from(symbol: erased::SymbolData) -> Self {
        SymbolData { name: symbol.name.into(), address: symbol.address, size: symbol.size }
    }
}

/// A symbol's name in readable form.
#[derive(Debug, Clone, PartialEq, Eq, Hash)]
pub struct SymbolName {
    /// The path with the hash of a legacy name, or with the disambiguators of the crates of a v0 name.
    pub complete: String,
    /// The path without the last part of a legacy name, or without the disambiguators of a v0 name.
    pub trimmed: String,
    /// The crate of a v0 name: its first crate root outside a back reference. It may be empty. `None` if the name has
    /// none, and for other names.
    pub crate_name: Option<String>,
    /// How the name is mangled. Where it is [`Kind::Unknown`], both texts are the name unchanged.
    pub kind: Kind,
}

impl SymbolName {
    /// Returns the readable form of `name`.
    ///
    /// Where an allocation fails, the program ends as it does where a `String` can't grow; [`SymbolName::try_demangle`]
    /// returns an error there.
    ///
    /// # Examples
    ///
    /// ```
    /// use binfarce::demangle::{Kind, SymbolName};
    ///
    /// let name = SymbolName::demangle("_RNvC6_123foo3bar");
    /// assert_eq!((&*name.complete, &*name.trimmed), ("123foo[0]::bar", "123foo::bar"));
    /// assert_eq!((name.crate_name.as_deref(), name.kind), (Some("123foo"), Kind::V0));
    /// // A name that isn't mangled is unchanged.
    /// assert_eq!(SymbolName::demangle("main").trimmed, "main");
    /// ```
    #[must_use]
    pub fn demangle(name: &str) -> Self {
        SymbolName::try_demangle(name).unwrap_or_else(|_| out_of_memory())
    }

    /// Returns the readable form of `name`, as [`SymbolName::demangle`] does.
    ///
    /// # Errors
    ///
    /// [`OutOfMemory`] if an allocation failed.
    ///
    /// # Examples
    ///
    /// ```
    /// use binfarce::demangle::SymbolName;
    ///
    /// assert_eq!(SymbolName::try_demangle("_RNvC1a1b")?.trimmed, "a::b");
    /// # Ok::<(), binfarce::OutOfMemory>(())
    /// ```
    pub fn try_demangle(name: &str) -> Result<Self, OutOfMemory> {
        Demangler::new().demangle(name)
    }
}

/// `{}` prints the complete text, and `{:#}` the trimmed one, as of a [`Demangle`].
impl fmt::Display for SymbolName {
    fn fmt(&self, f: &mut fmt::Formatter<'_>) -> fmt::Result {
        f.pad(if f.alternate() { &self.trimmed } else { &self.complete })
    }
}

#[doc(hidden)]
impl From<erased::SymbolName> for SymbolName {
    fn from(name: erased::SymbolName) -> Self {
        SymbolName {
            complete: name.complete.into_std(),
            trimmed: name.trimmed.into_std(),
            crate_name: name.crate_name.map(shim::String::into_std),
            kind: name.kind,
        }
    }
}

/// A demangler that reuses its memory from name to name. It keeps at most 1 MiB.
///
/// # Examples
///
/// ```
/// use binfarce::demangle::Demangler;
///
/// # fn main() -> Result<(), binfarce::OutOfMemory> {
/// let mut demangler = Demangler::new();
/// assert_eq!(demangler.demangle("_RNvC1a1b")?.crate_name.as_deref(), Some("a"));
/// assert_eq!(demangler.crate_of("_ZN3foo3bar17h05af221e174051e9E")?.as_deref(), Some("foo"));
///
/// let mut text = String::from("at ");
/// demangler.push_trimmed(&mut text, "_RNvC1a1b")?;
/// assert_eq!(text, "at a::b");
/// demangler.push_complete(&mut text, "_RNvC1a1b")?;
/// assert_eq!(text, "at a::ba[0]::b");
/// assert!(!demangler.push_crate(&mut text, "main")?);
/// # Ok(())
/// # }
/// ```
pub struct Demangler(erased::Demangler);

impl Demangler {
    /// Returns a demangler that holds no memory yet.
    #[must_use]
    pub fn new() -> Self {
        Demangler(erased::Demangler::new(Global))
    }

    /// Returns the readable form of `name`, as [`SymbolName::demangle`] does.
    ///
    /// # Errors
    ///
    /// [`OutOfMemory`] if an allocation failed.
    ///
    /// # Examples
    ///
    /// ```
    /// use binfarce::demangle::Demangler;
    ///
    /// let mut demangler = Demangler::new();
    /// let names = ["_RNvC1a1b", "_RNvC1a1c"].map(|name| demangler.demangle(name).map(|name| name.trimmed));
    /// assert_eq!(names, [Ok("a::b".to_string()), Ok("a::c".to_string())]);
    /// ```
    pub fn demangle(&mut self, name: &str) -> Result<SymbolName, OutOfMemory> {
        Ok(self.0.demangle(name)?.into())
    }

    /// Appends the trimmed text of `name` to `text`.
    ///
    /// # Errors
    ///
    /// [`OutOfMemory`] if an allocation failed. `text` is unchanged then.
    ///
    /// # Examples
    ///
    /// ```
    /// use binfarce::demangle::Demangler;
    ///
    /// let (mut demangler, mut line) = (Demangler::new(), String::from("at "));
    /// demangler.push_trimmed(&mut line, "_ZN3foo3bar17h05af221e174051e9E")?;
    /// assert_eq!(line, "at foo::bar");
    /// # Ok::<(), binfarce::OutOfMemory>(())
    /// ```
    pub fn push_trimmed(&mut self, text: &mut String, name: &str) -> Result<(), OutOfMemory> {
        with_shim(text, |text| {
            // A legacy name is printed part by part, and its text is mostly no longer than the name. Of a v0 name all is
            // appended at once.
            if is_legacy(name) {
                text.reserve(name.len())?;
            }
            self.0.push_trimmed(text, name)
        })
    }

    /// Appends the complete text of `name` to `text`.
    ///
    /// # Errors
    ///
    /// [`OutOfMemory`] if an allocation failed. `text` is unchanged then.
    ///
    /// # Examples
    ///
    /// ```
    /// use binfarce::demangle::Demangler;
    ///
    /// let (mut demangler, mut line) = (Demangler::new(), String::from("at "));
    /// demangler.push_complete(&mut line, "_ZN3foo3bar17h05af221e174051e9E")?;
    /// assert_eq!(line, "at foo::bar::h05af221e174051e9");
    /// # Ok::<(), binfarce::OutOfMemory>(())
    /// ```
    pub fn push_complete(&mut self, text: &mut String, name: &str) -> Result<(), OutOfMemory> {
        // Into an empty text it is printed itself.
        let mut complete = if text.is_empty() { core::mem::take(text) } else { String::new() }.into();
        let printed = self.0.short_text(&mut complete, name, true, usize::MAX);
        if text.is_empty() {
            if printed.is_err() {
                complete.clear();
            }
            *text = complete.into_std();
            return Ok(printed?);
        }
        printed?;
        with_shim(text, |text| text.push_str(&complete))
    }

    /// Appends the crate of `name`, as [`Demangler::crate_of`] returns it, to `text`. Returns whether it has one.
    ///
    /// # Errors
    ///
    /// [`OutOfMemory`] if an allocation failed. `text` is unchanged then.
    ///
    /// # Examples
    ///
    /// ```
    /// use binfarce::demangle::Demangler;
    ///
    /// let (mut demangler, mut line) = (Demangler::new(), String::from("in "));
    /// assert!(demangler.push_crate(&mut line, "_RNvC1a1b")? && !demangler.push_crate(&mut line, "main")?);
    /// assert_eq!(line, "in a");
    /// # Ok::<(), binfarce::OutOfMemory>(())
    /// ```
    pub fn push_crate(&mut self, text: &mut String, name: &str) -> Result<bool, OutOfMemory> {
        with_shim(text, |text| erased::push_crate(Global, text, name))
    }

    /// Returns the crate of `name`: that of a v0 name as [`SymbolName::crate_name`] has it, and of a legacy name the first
    /// part of its path; `None` if that begins with `<`. [`Key::Crate`](crate::figures::Key::Crate) has a crate for most such
    /// names, that of the type or of the trait, in the sums of [`Tables::sums_by_key`](crate::Tables::sums_by_key).
    ///
    /// # Errors
    ///
    /// [`OutOfMemory`] if an allocation failed.
    ///
    /// # Examples
    ///
    /// ```
    /// use binfarce::demangle::Demangler;
    ///
    /// let mut demangler = Demangler::new();
    /// assert_eq!(demangler.crate_of("_ZN3foo3bar17h05af221e174051e9E")?.as_deref(), Some("foo"));
    /// assert_eq!(demangler.crate_of("main")?, None);
    /// // `<foo::Bar as core::fmt::Debug>::fmt`, which `Key::Crate` counts for `foo`.
    /// assert_eq!(demangler.crate_of("_ZN45_$LT$foo..Bar$u20$as$u20$core..fmt..Debug$GT$3fmt17h0123456789abcdefE")?, None);
    /// # Ok::<(), binfarce::OutOfMemory>(())
    /// ```
    pub fn crate_of(&mut self, name: &str) -> Result<Option<String>, OutOfMemory> {
        Ok(self.0.crate_of(name)?.map(shim::String::into_std))
    }
}

/// What names are printed by: memory for the next one, at most 1 MiB of the demangler and [`MOST_KEPT`] bytes of the text.
struct Printing {
    demangler: erased::Demangler,
    text: shim::String,
}

const MOST_KEPT: usize = 1 << 16;

#[cfg(feature = "std")]
std::thread_local! {
    static KEPT: core::cell::RefCell<Printing> = core::cell::RefCell::new(Printing::new());
}

impl Printing {
    fn new() -> Self {
        Printing { demangler: erased::Demangler::new(Global), text: shim::String::new(Global) }
    }

    fn show(&mut self, name: &str, f: &mut fmt::Formatter<'_>) -> fmt::Result {
        let (Printing { demangler, text }, full) = (self, !f.alternate());
        text.clear();
        // The trimmed text of a legacy name grows part by part, and is mostly no longer than the name.
        let printed = if is_legacy(name) && !full { text.reserve(name.len()) } else { Ok(()) };
        let printed = printed.and_then(|()| demangler.short_text(text, name, full, MAX_PRINTED + 1));
        let shown = f.pad(if printed.is_ok() { text } else { name });
        if text.capacity() > MOST_KEPT {
            *text = shim::String::new(Global);
        }
        shown
    }
}

/// Whether a name has a prefix of the legacy mangling.
fn is_legacy(name: &str) -> bool {
    name.starts_with("_ZN") || name.starts_with("ZN") || name.starts_with("__ZN")
}

/// Lends a text to a call that appends to it.
fn with_shim<T>(
    text: &mut String,
    append: impl FnOnce(&mut shim::String) -> Result<T, AllocError>,
) -> Result<T, OutOfMemory> {
    let mut lent = core::mem::take(text).into();
    let appended = append(&mut lent);
    *text = lent.into_std();
    Ok(appended?)
}

impl Default for Demangler {
    fn default() -> Self {
        Demangler::new()
    }
}

impl fmt::Debug for Demangler {
    fn fmt(&self, f: &mut fmt::Formatter<'_>) -> fmt::Result {
        f.debug_struct("Demangler").finish_non_exhaustive()
    }
}

/// Returns the trimmed text of `name`: the [`SymbolName::trimmed`] of its readable form, and nothing else of it.
///
/// # Errors
///
/// [`OutOfMemory`] if an allocation failed.
///
/// # Examples
///
/// ```
/// use binfarce::demangle::trimmed;
///
/// assert_eq!(trimmed("_RNvC6_123foo3bar")?, "123foo::bar");
/// assert_eq!(trimmed("main")?, "main");
/// # Ok::<(), binfarce::OutOfMemory>(())
/// ```
pub fn trimmed(name: &str) -> Result<String, OutOfMemory> {
    let mut text = String::new();
    Demangler::new().push_trimmed(&mut text, name)?;
    Ok(text)
}

/// How many bytes of text [`Demangle`] prints at most of a name: 2^20.
pub const MAX_PRINTED: usize = 1 << 20;

/// A name that may be mangled, to be printed: the answer of [`demangle`].
///
/// `{}` prints its [complete](SymbolName::complete) text, and `{:#}` its [trimmed](SymbolName::trimmed) one, into any
/// [`fmt::Write`]. The text is made before the first byte is written, in memory that is bounded by [`MAX_PRINTED`]; with the feature
/// `std` each thread keeps at most 1 MiB of it for its next names, as a [`Demangler`] does. The name is
/// printed as it is stored where its text has more bytes than that, and if an allocation fails: so a panic hook can print a
/// name where memory has run out, and the program doesn't end. [`SymbolName::try_demangle`] and [`trimmed()`] return an error there.
///
/// # Examples
///
/// ```
/// use std::fmt::Write;
///
/// let mut line = String::new();
/// write!(line, "at {:#}", binfarce::demangle::demangle("_RNvC1a1b"))?;
/// assert_eq!(line, "at a::b");
/// # Ok::<(), std::fmt::Error>(())
/// ```
#[derive(Debug, Clone, Copy, PartialEq, Eq, Hash)]
pub struct Demangle<'a>(&'a str);

impl fmt::Display for Demangle<'_> {
    fn fmt(&self, f: &mut fmt::Formatter<'_>) -> fmt::Result {
        // By what the thread keeps, unless that is in use, by a writer that prints a name, or gone.
        #[cfg(feature = "std")]
        if let Ok(Some(shown)) = KEPT.try_with(|kept| Some(kept.try_borrow_mut().ok()?.show(self.0, f))) {
            return shown;
        }
        Printing::new().show(self.0, f)
    }
}

impl<'a> Demangle<'a> {
    /// Returns the name as it is stored.
    ///
    /// # Examples
    ///
    /// ```
    /// assert_eq!(binfarce::demangle::demangle("_RNvC1a1b").as_str(), "_RNvC1a1b");
    /// ```
    #[must_use]
    pub fn as_str(&self) -> &'a str {
        self.0
    }

    /// Returns how the name is mangled, decided without printing it: a v0 name beyond the limits is [`Kind::V0`] here. Nothing
    /// is allocated.
    ///
    /// # Examples
    ///
    /// ```
    /// use binfarce::demangle::{Kind, demangle};
    ///
    /// let kinds = ["_RNvC1a1b", "_ZN3foo3barE", "main"].map(|name| demangle(name).kind());
    /// assert_eq!(kinds, [Kind::V0, Kind::Legacy, Kind::Unknown]);
    /// ```
    #[must_use]
    pub fn kind(&self) -> Kind {
        erased::demangle(self.0).kind()
    }

    /// Returns the name without the prefix of its mangling and without a suffix of LLVM: its first `.llvm.` and all that follows,
    /// if that is only `0` to `9`, `A` to `F` and `@`, or nothing. All of a name that isn't mangled. Nothing is allocated.
    ///
    /// # Examples
    ///
    /// ```
    /// use binfarce::demangle::demangle;
    ///
    /// assert_eq!(demangle("_ZN3foo3barE.llvm.9D1C9369@@16").part(), "3foo3barE");
    /// assert_eq!(demangle("_ZN3foo3barE.llvm.9d1c").part(), "3foo3barE.llvm.9d1c");
    /// assert_eq!(demangle("main").part(), "main");
    /// ```
    #[must_use]
    pub fn part(&self) -> &'a str {
        erased::demangle(self.0).part()
    }
}

/// Returns `name` as what prints its readable form. The name is read when it is printed, or when it is asked for its kind.
///
/// # Examples
///
/// ```
/// use binfarce::demangle::{Kind, demangle};
///
/// let name = demangle("_RNvC1a1b.llvm.9D1C9369");
/// assert_eq!((name.kind(), name.part()), (Kind::V0, "NvC1a1b"));
/// assert_eq!(format!("{name} {name:#}"), "a[0]::b a::b");
/// ```
#[must_use]
pub fn demangle(name: &str) -> Demangle<'_> {
    Demangle(name)
}
