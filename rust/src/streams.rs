//! Streams that tables are read of, and that texts are written to. Their errors are kept: the proved code learns only that one failed.

use crate::any::known_format;
use crate::erased::binfarce_bytes::source::Source;
use crate::erased::binfarce_figures::claims::Claims;
use crate::erased::binfarce_figures::{diff::diff, map::map_by, rows::list_by, stacks::fold_claims, sums::sum_by};
use crate::erased::binfarce_sections::error::SectionError;
use crate::erased::binfarce_tables::loading::{self, LoadAddress};
use crate::erased::binfarce_tables::{ReadError, part};
use crate::erased::binfarce_tools::list::{Sink, list_tables};
use crate::erased::binfarce_tools::report::{ReportError, report_tables};
use crate::erased::binfarce_tools::tables;
use crate::figures::{Figures, Grouping, Growth, Layout, Shown};
use crate::foreign::FIRST_LENGTH;
use crate::shim::alloc::Global;
use crate::{Error, Format, Selection, StreamError, SymbolTable, Tables};
use core::cell::RefCell;
use std::io::{self, ErrorKind, Read, Seek, SeekFrom, Write};

/// A stream that keeps its last error.
pub(crate) struct Kept<S> {
    pub(crate) stream: S,
    error: Option<io::Error>,
}

impl<S> Kept<S> {
    pub(crate) fn new(stream: S) -> Self {
        Kept { stream, error: None }
    }

    /// Returns the kept error, or one of this kind.
    pub(crate) fn into_error(self, kind: ErrorKind) -> io::Error {
        self.error.unwrap_or_else(|| kind.into())
    }

    /// Keeps the error, unless its call will be repeated, and returns one of its kind.
    fn keep<T>(&mut self, result: io::Result<T>) -> io::Result<T> {
        result.map_err(|e| {
            let kind = e.kind();
            if kind != ErrorKind::Interrupted {
                self.error = Some(e);
            }
            kind.into()
        })
    }

    /// The same of a count of bytes, which is at most `most`.
    fn keep_count(&mut self, result: io::Result<usize>, most: usize) -> io::Result<usize> {
        self.keep(match result {
            Ok(count) if count > most => Err(ErrorKind::InvalidData.into()),
            _ => result,
        })
    }
}

impl<R: Read> Read for Kept<R> {
    fn read(&mut self, buffer: &mut [u8]) -> io::Result<usize> {
        let result = self.stream.read(buffer);
        self.keep_count(result, buffer.len())
    }
}

impl<W: Write> Write for Kept<W> {
    fn write(&mut self, bytes: &[u8]) -> io::Result<usize> {
        let result = self.stream.write(bytes);
        self.keep_count(result, bytes.len())
    }

    fn flush(&mut self) -> io::Result<()> {
        let result = self.stream.flush();
        self.keep(result)
    }
}

impl<W: Write> Sink for Kept<W> {
    /// An interrupted write is repeated.
    fn write(&mut self, bytes: &[u8]) -> Option<usize> {
        loop {
            match Write::write(self, bytes) {
                Ok(0) => self.error = Some(ErrorKind::WriteZero.into()),
                Ok(count) => return Some(count),
                Err(e) if e.kind() == ErrorKind::Interrupted => continue,
                Err(_) => {}
            }
            return None;
        }
    }

    fn failed(&self) -> bool {
        self.error.is_some()
    }
}

impl<S: Read + Seek> Source for RefCell<Kept<S>> {
    type Log = ();

    fn length(&self) -> io::Result<u64> {
        let mut kept = self.borrow_mut();
        let result = kept.stream.seek(SeekFrom::End(0));
        kept.keep(result)
    }

    fn fill_at(&self, (): &mut (), offset: u64, buffer: &mut [u8]) -> io::Result<()> {
        let mut kept = self.borrow_mut();
        let result = kept.stream.seek(SeekFrom::Start(offset));
        kept.keep(result)?;
        kept.read_exact(buffer)
    }
}

/// Reads a file by its format, and returns what `read` does. Where a read fails, the error is the stream's own.
///
/// # Errors
///
/// That of `file`; [`Error::UnknownFormat`] and that of `read`.
pub(crate) fn read_by_format<S, T, F>(file: S, read: F) -> Result<T, StreamError>
where
    S: Read + Seek,
    F: FnOnce(&RefCell<Kept<S>>, Format) -> Result<T, SectionError>,
{
    let file = RefCell::new(Kept::new(file));
    let len = file.length().map_err(ReadError::from);
    let first = len.and_then(|len| part(Global, &file, &mut (), 0, len.min(FIRST_LENGTH as u64)));
    let answer = match first {
        Ok(first) => read(&file, known_format(&first)?),
        Err(e) => Err(e.into()),
    };
    match answer {
        Ok(answer) => Ok(answer),
        Err(SectionError::Unreadable) => Err(file.into_inner().into_error(ErrorKind::UnexpectedEof).into()),
        Err(e) => Err(Error::from(e).into()),
    }
}

impl Tables<'static> {
    /// Reads the tables of a file at offsets: its first 512 bytes, its headers, the symbol table and its strings, and the last
    /// byte; but all of a Mach-O file whose load commands pass their stated end. `file` is a [`File`](std::fs::File), or
    /// anything else that can be read from the offsets that it is set to. With the feature `std`.
    ///
    /// # Errors
    ///
    /// [`StreamError::Stream`] with that of `file`; otherwise that of [`Tables::new`].
    ///
    /// # Examples
    ///
    /// ```
    /// use binfarce::{Selection, SymbolTable, Tables};
    ///
    /// # let path = concat!(env!("CARGO_MANIFEST_DIR"), "/samples/elf64-little.bin");
    /// let tables = Tables::read(std::fs::File::open(path)?, Selection::All, SymbolTable::Symtab)?;
    /// assert_eq!(tables.functions()?.count(), 3);
    /// # Ok::<(), Box<dyn std::error::Error>>(())
    /// ```
    pub fn read<R: Read + Seek>(file: R, selection: Selection<'_>, table: SymbolTable) -> Result<Self, StreamError> {
        let tables = read_by_format(file, |file, format| {
            Ok(tables::read_tables(Global, file, &mut (), format, table.into_erased(), selection.into())?)
        })?;
        Ok(Tables(tables.accepted(Global).map_err(Error::from)?))
    }
}

impl Tables<'_> {
    /// Writes the text of [`list`](crate::list). For [`Selection::All`] each line has the name of the symbol's section
    /// before the symbol's, or its number in brackets where it has none, and there is no last line. With the feature `std`.
    ///
    /// # Errors
    ///
    /// [`StreamError::Stream`] with that of `output`, or with [`ErrorKind::WriteZero`] where it takes no more bytes; otherwise that
    /// of [`Tables::functions`]: then nothing is written.
    ///
    /// # Examples
    ///
    /// ```
    /// use binfarce::{Selection, SymbolTable, Tables};
    ///
    /// # let path = concat!(env!("CARGO_MANIFEST_DIR"), "/samples/elf64-little.bin");
    /// let file = std::fs::read(path)?;
    /// let tables = Tables::new(&file, Selection::All, SymbolTable::Symtab)?;
    /// let mut text = Vec::new();
    /// tables.list_to(&mut text)?;
    /// assert_eq!(text, b"0000000000001000         16 .text foo\n0000000000001010         16 .symtab bad\n0000000000001010          0 .text bad\n");
    /// # Ok::<(), Box<dyn std::error::Error>>(())
    /// ```
    pub fn list_to<W: Write>(&self, output: W) -> Result<(), StreamError> {
        write_to(output, |sink| Ok(list_tables(Global, &self.0, sink)?))
    }

    /// Writes the text of [`report`](crate::report). For [`Selection::All`] its last line is that of the sum. With the feature
    /// `std`.
    ///
    /// # Errors
    ///
    /// Those of [`Tables::list_to`]; [`Error::TooLarge`] where the sum of all sizes is 2^64 or more.
    ///
    /// # Examples
    ///
    /// ```
    /// use binfarce::{Selection, SymbolTable, Tables};
    ///
    /// # let path = concat!(env!("CARGO_MANIFEST_DIR"), "/samples/elf64-little.bin");
    /// let file = std::fs::read(path)?;
    /// let tables = Tables::new(&file, Selection::All, SymbolTable::Symtab)?;
    /// let mut text = Vec::new();
    /// tables.report_to(&mut text)?;
    /// assert_eq!(text, b"        16 [unknown]\n        16 foo\nsum 32\n");
    /// # Ok::<(), Box<dyn std::error::Error>>(())
    /// ```
    pub fn report_to<W: Write>(&self, output: W) -> Result<(), StreamError> {
        write_to(output, |sink| report_tables(Global, &self.0, sink))
    }

    /// Writes the sums of [`Tables::sums_by_key`] as a picture: an SVG document with this title, such as the file's name, and a
    /// bar for each sum, the greatest first. With the feature `std`.
    ///
    /// # Errors
    ///
    /// Those of [`Tables::figures_to`].
    ///
    /// # Examples
    ///
    /// ```
    /// use binfarce::{Selection, SymbolTable, Tables};
    ///
    /// # let path = concat!(env!("CARGO_MANIFEST_DIR"), "/samples/elf64-little.bin");
    /// let file = std::fs::read(path)?;
    /// let tables = Tables::new(&file, Selection::All, SymbolTable::Symtab)?;
    /// let mut picture = Vec::new();
    /// tables.map_to("a file", binfarce::figures::Key::Crate, &mut picture)?;
    /// assert!(picture.starts_with(b"<svg "));
    /// # Ok::<(), Box<dyn std::error::Error>>(())
    /// ```
    pub fn map_to<W: Write>(&self, title: &str, grouping: impl Into<Grouping>, output: W) -> Result<(), StreamError> {
        let grouping = grouping.into().into_erased();
        write_to(output, |sink| map_by(Global, title, &Claims::of_tables(Global, &self.0)?, grouping, None, sink))
    }

    /// Writes a listing in an order, of the first rows, or with other names, as lines or as JSON objects. With the feature `std`.
    ///
    /// # Errors
    ///
    /// Those of [`Tables::list_to`].
    ///
    /// # Examples
    ///
    /// ```
    /// use binfarce::figures::{Layout, Order, Shown};
    /// use binfarce::{Selection, SymbolTable, Tables};
    ///
    /// # let path = concat!(env!("CARGO_MANIFEST_DIR"), "/samples/elf64-little.bin");
    /// let file = std::fs::read(path)?;
    /// let tables = Tables::new(&file, Selection::All, SymbolTable::Symtab)?;
    /// let shown = Shown::new().with_order(Order::Name);
    /// let mut text = Vec::new();
    /// tables.rows_to(&shown, Layout::Lines, &mut text)?;
    /// assert_eq!(text, b"0000000000001010         16 .symtab bad\n0000000000001010          0 .text bad\n0000000000001000         16 .text foo\n");
    /// # Ok::<(), Box<dyn std::error::Error>>(())
    /// ```
    pub fn rows_to<W: Write>(&self, shown: &Shown, layout: Layout<'_>, output: W) -> Result<(), StreamError> {
        let (shown, form) = (shown.into_erased(), layout.into_erased());
        write_to(output, |sink| Ok(list_by(Global, &self.0, &shown, form, sink)?))?;
        Ok(())
    }

    /// Writes sums by a key, the greatest first, as lines or as JSON objects, and returns the sum of all sizes. A byte of several
    /// function symbols counts once. With the feature `std`.
    ///
    /// # Errors
    ///
    /// Those of [`Tables::list_to`]; [`Error::TooLarge`] where the sum of all, each byte counted once, is
    /// 2^64 or more.
    ///
    /// # Examples
    ///
    /// ```
    /// use binfarce::figures::{Figures, Key, Layout};
    /// use binfarce::{Selection, SymbolTable, Tables};
    ///
    /// # let path = concat!(env!("CARGO_MANIFEST_DIR"), "/samples/elf64-little.bin");
    /// let file = std::fs::read(path)?;
    /// let tables = Tables::new(&file, Selection::Section(".text"), SymbolTable::Symtab)?;
    /// let mut text = Vec::new();
    /// let sum = tables.figures_to(&Figures::by(Key::Function).with_percent(), Layout::Lines, &mut text)?;
    /// assert_eq!(sum, 16);
    /// assert_eq!(text, b"        16  50.00% foo\nsum 16\ntext 32\n");
    /// # Ok::<(), Box<dyn std::error::Error>>(())
    /// ```
    pub fn figures_to<W: Write>(&self, figures: &Figures, layout: Layout<'_>, output: W) -> Result<u64, StreamError> {
        let (figures, form) = (figures.into_erased(), layout.into_erased());
        let sums = write_to(output, |sink| sum_by(Global, &Claims::of_tables(Global, &self.0)?, &figures, form, sink))?;
        Ok(sums.total)
    }

    /// Writes how the sums of [`Tables::figures_to`] differ from those of an older file, the greatest change first, and returns
    /// the sums of all sizes. With the feature `std`.
    ///
    /// # Errors
    ///
    /// Those of [`Tables::figures_to`], first for the older file.
    ///
    /// # Examples
    ///
    /// ```
    /// use binfarce::figures::{Figures, Key, Layout};
    /// use binfarce::{Selection, SymbolTable, Tables};
    ///
    /// # let path = concat!(env!("CARGO_MANIFEST_DIR"), "/samples/elf64-little.bin");
    /// let file = std::fs::read(path)?;
    /// let tables = Tables::new(&file, Selection::All, SymbolTable::Symtab)?;
    /// let old = Tables::new(&file, Selection::Section(".text"), SymbolTable::Symtab)?;
    /// let mut text = Vec::new();
    /// let growth = tables.changes_to(&old, &Figures::by(Key::Crate), Layout::Lines, &mut text)?;
    /// assert_eq!((growth.old, growth.new), (16, 32));
    /// assert!(text.starts_with(b"         0         16         +16 [unknown]\n"));
    /// # Ok::<(), Box<dyn std::error::Error>>(())
    /// ```
    pub fn changes_to<W>(
        &self,
        old: &Tables<'_>,
        figures: &Figures,
        layout: Layout<'_>,
        output: W,
    ) -> Result<Growth, StreamError>
    where
        W: Write,
    {
        let (figures, form) = (figures.into_erased(), layout.into_erased());
        write_to(output, |sink| {
            let old = Claims::of_tables(Global, &old.0)?;
            let new = Claims::of_tables(Global, &self.0)?;
            diff(Global, &old, &new, &figures, form, sink).map(Growth::of)
        })
    }

    /// Writes a line for each function symbol that adds bytes to [`Tables::sums_by_key`], as tools for flame graphs read it: its
    /// crate and the parts of its name, with `;` between them, and the number of these bytes. With the feature `std`.
    ///
    /// # Errors
    ///
    /// Those of [`Tables::figures_to`].
    ///
    /// # Examples
    ///
    /// ```
    /// use binfarce::{Selection, SymbolTable, Tables};
    ///
    /// # let path = concat!(env!("CARGO_MANIFEST_DIR"), "/samples/elf64-little.bin");
    /// let file = std::fs::read(path)?;
    /// let tables = Tables::new(&file, Selection::All, SymbolTable::Symtab)?;
    /// let mut text = Vec::new();
    /// tables.stacks_to(&mut text)?;
    /// assert_eq!(text, b"[unknown];bad 16\nfoo 16\n");
    /// # Ok::<(), Box<dyn std::error::Error>>(())
    /// ```
    pub fn stacks_to<W: Write>(&self, output: W) -> Result<(), StreamError> {
        write_to(output, |sink| fold_claims(Global, &Claims::of_tables(Global, &self.0)?, false, sink))
    }
}

fn write_to<T, W, F>(output: W, write: F) -> Result<T, StreamError>
where
    W: Write,
    F: FnOnce(&mut Kept<W>) -> Result<T, ReportError>,
{
    let mut output = Kept::new(output);
    let written = write(&mut output);
    match written {
        Ok(value) => Ok(value),
        Err(ReportError::Write) => Err(output.into_error(ErrorKind::WriteZero).into()),
        Err(e) => Err(Error::from(e).into()),
    }
}

/// Returns [`load_address`](crate::load_address) of a file that is read at offsets: its first 512 bytes and its headers alone are
/// read. With the feature `std`.
///
/// # Errors
///
/// [`StreamError::Stream`] with that of `file`; otherwise that of [`load_address`](crate::load_address).
pub fn read_load_address<R: Read + Seek>(file: R) -> Result<Option<LoadAddress>, StreamError> {
    read_by_format(file, |file, format| Ok(loading::read_load_address(Global, file, &mut (), format)?))
}
