// From crates/binfarce_logs/src/annotate.rt, by tools/erase.

//! Annotates the addresses within a text.

use crate::shim::Vec;
use crate::erased::binfarce_logs::maps::name_of;
use crate::erased::binfarce_logs::module::{ends_with_plus, name_len, names_symbol};
use crate::erased::binfarce_logs::modules::Module;
use crate::erased::binfarce_logs::word::{address_len, is_decided, others_len};
use crate::erased::binfarce_addresses::at::Found;
use crate::erased::binfarce_addresses::counts::{Counts, Reply};
use crate::erased::binfarce_addresses::digits::push_offset;
use crate::erased::binfarce_addresses::names::Names;
use crate::erased::binfarce_addresses::stream::CHUNK;
use crate::erased::binfarce_rows::address::parse_address;
use crate::erased::binfarce_text::streams::{Pass, StreamError, pass_stream};
use crate::erased::binfarce_tools::list::Sink;
use crate::erased::binfarce_tools::writing::write_whole;
use crate::shim::alloc::{AllocError, Global};
use crate::shim::io::Read;

/// Appends the text with ` <name+0x1f>` after each address that a function symbol of these files holds: its readable
/// name, and the offset of the address into it. An address is `0x` or `0X` and 4 to 16 hexadecimal digits, in upper or
/// lower case, up to the next other byte; of bare words also 8 to 16 digits that no letter, digit, `_` or `-` comes
/// before or after. The first file with a function symbol that holds it answers. After `+` the number, of 1 to 16 digits,
/// is an offset, which is looked up only behind a file's name: `NAME+0x1f`, `NAME(+0x1f)` or `NAME + 0x1f`, after `/`,
/// `[`, a blank, a tab, a line feed or nothing, perhaps with a parenthesis between. NAME is the file's path or what comes
/// behind its last `/`. Where a function symbol of the file has the latter as its stored name, `NAME+0x1f` after a blank,
/// a tab, a line feed or nothing is an offset into that function, and not behind this file's name. The file with the
/// longest name there answers, and none where several have it: also not one that is given twice. All other bytes stay as
/// they are, and need not be UTF-8. Returns how many addresses there are, how many were found, and how many are offsets
/// that no file answers for this reason.
///
/// # Errors
///
/// `AllocError` if an allocation failed: `out` is then unspecified.
pub fn push_annotated(
    alloc: Global,
    modules: &[Module<'_>],
    is_bare: bool,
    text: &[u8],
    out: &mut Vec<u8>,
) -> Result<Counts, AllocError> {
    let mut files = new_files(alloc, modules, is_bare)?;
    files.push_decided(true, text, 0, out)?;
    Ok(files.counts)
}

/// Annotates a stream: writes what `push_annotated` gives for all that the reader gives. Each line is written as soon
/// as its line feed has come: of an unfinished line at most 18 bytes at its end wait, an address that may go on. A read
/// that was interrupted is tried again. Returns the same counts.
///
/// # Errors
///
/// `Read` if the reader failed: what came before is annotated, as if the stream ended there. `Write` if a write
/// failed, and `OutOfMemory` if an allocation did: a beginning was written.
pub fn annotate_stream<R: Read, S: Sink>(
    alloc: Global,
    modules: &[Module<'_>],
    is_bare: bool,
    input: &mut R,
    out: &mut S,
) -> Result<Counts, StreamError> {
    let mut pass = Annotating {
        alloc,
        files: new_files(alloc, modules, is_bare)?,
        kept: Vec::new(alloc),
        from: 0,
    };
    pass_stream(alloc, &mut pass, CHUNK, input, out)?;
    Ok(pass.files.counts)
}

// The files that addresses are looked up in, with the names that were needed, and what was counted.
pub(crate) struct Files<'a> {
    names: Vec<File<'a>>,
    is_bare: bool,
    pub(crate) counts: Counts,
}

// What annotates a text that comes in parts.
pub(crate) struct Annotating<'a> {
    pub(crate) alloc: Global,
    pub(crate) files: Files<'a>,
    // The end of the text: what may matter of what was shown, and an address that may go on.
    pub(crate) kept: Vec<u8>,
    // How much of it was shown.
    pub(crate) from: usize,
}

impl Annotating<'_> {
    // Annotates the kept text and the next part, and keeps an address at its end that may go on, unless the text ends.
    pub(crate) fn push(
        &mut self,
        is_last: bool,
        part: &[u8],
        out: &mut Vec<u8>,
    ) -> Result<(), AllocError> {
        let from = self.from.min(self.kept.len());
        self.kept.extend_from_slice(part)?;
        let at = self.files.push_decided(is_last, &self.kept, from, out)?;
        let reach = reach_of(&self.files.names);
        self.from = at.min(reach);
        self.kept = Vec::from_slice(self.alloc, &self.kept[at - self.from..])?;
        Ok(())
    }
}

// A file that addresses are looked up in.
struct File<'a> {
    names: Names<'a, 'a>,
    // Whether one of its functions has its name.
    is_function: bool,
}

impl File<'_> {
    // How many bytes before an address can matter: the path, and what may come before and after it.
    fn reach(&self) -> usize {
        self.names.path().len() + 5
    }

    // How many bytes the file's name has that is before an offset, which comes after this text. 0 if none is, and where
    // it may be that of a function of the file.
    fn name_before(&self, before: &[u8]) -> usize {
        let path = self.names.path();
        if self.is_function && names_symbol(name_of(path), before) {
            return 0;
        }
        name_len(path, before)
    }

    // What is found at an offset from the file's origin.
    fn find_offset(&self, offset: u64) -> Option<Found> {
        self.names.find_offset(offset)
    }

    // What is found at an address.
    fn find_address(&self, address: u64) -> Option<Found> {
        self.names.find_address(address)
    }

    // Appends the readable name of the function symbol at a place to the text, and keeps it.
    fn push_name(&mut self, text: &mut Vec<u8>, place: usize) -> Result<(), AllocError> {
        self.names.push_name(text, place)
    }
}

// How many bytes before an address can matter: the longest path, and what may come before and after it.
fn reach_of(names: &[File<'_>]) -> usize {
    let mut reach: usize = 5;
    for file in names {
        let own = file.reach();
        reach = reach.max(own);
    }
    reach
}

// What is found for a number that comes after `before`: the place of the file, and what is found there. An error if it
// isn't asked for, or several files are named.
fn find_by(
    names: &[File<'_>],
    before: &[u8],
    number: Option<u64>,
) -> Result<Option<(usize, Found)>, Reply> {
    let Some(number) = number else {
        return Err(Reply::Unasked);
    };
    if ends_with_plus(before) {
        return find_behind(names, before, number);
    }
    Ok(find_among(names, number))
}

// What is found at an offset that comes after `before`.
fn find_behind(
    names: &[File<'_>],
    before: &[u8],
    offset: u64,
) -> Result<Option<(usize, Found)>, Reply> {
    let longest = longest_name(names, before);
    if longest == 0 {
        return Err(Reply::Unasked);
    }
    let mut here = None;
    for at in 0..names.len() {
        if names[at].name_before(before) == longest {
            if here.is_some() {
                return Err(Reply::Unclear);
            }
            here = Some(at);
        }
    }
    let Some(at) = here else {
        return Err(Reply::Unasked);
    };
    match names[at].find_offset(offset) {
        Some(found) => Ok(Some((at, found))),
        None => Ok(None),
    }
}

// How many bytes the longest name of a file has that is before an offset, which comes after `before`. 0 if none is.
fn longest_name(names: &[File<'_>], before: &[u8]) -> usize {
    let mut longest: usize = 0;
    for file in names {
        let own = file.name_before(before);
        longest = longest.max(own);
    }
    longest
}

// What is found at an address.
fn find_among(names: &[File<'_>], address: u64) -> Option<(usize, Found)> {
    for at in 0..names.len() {
        if let Some(found) = names[at].find_address(address) {
            return Some((at, found));
        }
    }
    None
}

// These files, without a name so far.
pub(crate) fn new_files<'a>(
    alloc: Global,
    modules: &[Module<'a>],
    is_bare: bool,
) -> Result<Files<'a>, AllocError> {
    let mut names = Vec::new(alloc);
    for module in modules {
        names.push(File {
            names: Names::with_room(alloc, module.places, module.lookup)?,
            is_function: module.places.has(name_of(module.lookup.path)),
        })?;
    }
    let counts = Counts::new();
    Ok(Files {
        names,
        is_bare,
        counts,
    })
}

impl Files<'_> {
    // Appends the annotated text from a position on, before an address at the text's end that may go on, and returns
    // where that begins. With nothing after the text, this is its end.
    fn push_decided(
        &mut self,
        is_last: bool,
        text: &[u8],
        from: usize,
        out: &mut Vec<u8>,
    ) -> Result<usize, AllocError> {
        let mut at = from;
        while at < text.len() && is_decided(self.is_bare, is_last, &text[at..]) {
            let len = self.push_first(&text[..at], &text[at..], out)?;
            at += len;
        }
        Ok(at)
    }

    // Appends the annotated text of an address that the text begins with, or of bytes before the next one. Returns how
    // many bytes these are.
    fn push_first(
        &mut self,
        before: &[u8],
        text: &[u8],
        out: &mut Vec<u8>,
    ) -> Result<usize, AllocError> {
        let len = address_len(self.is_bare, before, text);
        if len == 0 {
            let others = others_len(self.is_bare, text);
            out.extend_from_slice(&text[..others])?;
            return Ok(others);
        }
        self.push_address(before, &text[..len], out)?;
        Ok(len)
    }

    // Appends an address, and what is added after it: the readable name of its function symbol and the offset, in angle
    // brackets.
    fn push_address(
        &mut self,
        before: &[u8],
        word: &[u8],
        out: &mut Vec<u8>,
    ) -> Result<(), AllocError> {
        out.extend_from_slice(word)?;
        let found = match find_by(&self.names, before, parse_address(word)) {
            Ok(found) => found,
            Err(reply) => {
                self.counts.add(reply);
                return Ok(());
            }
        };
        self.counts.add(Reply::Held(found.is_some()));
        let Some((file, (place, offset))) = found else {
            return Ok(());
        };
        out.extend_from_slice(b" <")?;
        self.names[file].push_name(out, place)?;
        push_offset(out, offset, b'>')
    }
}

impl<S: Sink> Pass<S> for Annotating<'_> {
    fn take(&mut self, part: &[u8], out: &mut Vec<u8>) -> Result<(), AllocError> {
        self.push(false, part, out)
    }

    fn end(&mut self, _ended: bool, out: &mut Vec<u8>) -> Result<(), AllocError> {
        self.push(true, &[], out)
    }

    fn write(out: &mut S, bytes: &[u8]) -> Result<(), StreamError> {
        write_whole(out, bytes).map_err(|_| StreamError::Write)
    }
}
