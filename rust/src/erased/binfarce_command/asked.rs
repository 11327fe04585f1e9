// From crates/binfarce_command/src/asked.rt, by tools/erase.

//! What `at` is asked for: addresses, and where its files are loaded.

use crate::shim::{HostRuntime, String, Vec};
use crate::erased::binfarce_command::report::report;
use crate::erased::binfarce_io::fault::Fault;
use crate::erased::binfarce_io::message::{Message, message_of};
use crate::erased::binfarce_jobs::at::read_addresses;
use crate::erased::binfarce_sections::error::SectionError;
use crate::erased::binfarce_words::flag::Flag::{Annotate, Maps};
use crate::erased::binfarce_words::given::Arguments;
use crate::erased::binfarce_words::wrong::Wrong;
use crate::shim::alloc::Global;
use crate::shim::fs::File;
use crate::shim::io::{self, ErrorKind, Read};

// The longest text that is read before it is annotated, for the maps in it: 256 MiB.
const LONGEST_LOG: usize = 1 << 28;

const TOO_LONG: &str = "the text is longer than 256 MiB; --maps=FILE takes a copy of its maps";

/// What `at` is asked for, beside its files.
pub struct Addresses {
    /// The addresses that are given.
    pub addresses: Vec<u64>,
    // The maps that were read.
    maps: Option<Vec<u8>>,
    // Whether they are in the text, which was read for them.
    are_in_text: bool,
}

impl Addresses {
    /// No address, and no file.
    pub fn nothing(alloc: Global) -> Addresses {
        Addresses {
            addresses: Vec::new(alloc),
            maps: None,
            are_in_text: false,
        }
    }

    /// The text that was read for the maps in it.
    pub fn text(&self) -> Option<&[u8]> {
        match &self.maps {
            Some(maps) if self.are_in_text => Some(maps.as_slice()),
            _ => None,
        }
    }

    /// The maps that were read.
    pub fn maps(&self) -> Option<&[u8]> {
        match &self.maps {
            Some(maps) => Some(maps.as_slice()),
            None => None,
        }
    }
}

/// What `at` is asked for. `None` if the maps can't be read, which is reported.
pub fn asked_of<'a>(
    rt: &HostRuntime,
    given: &Arguments<'a>,
) -> Result<Option<Addresses>, Wrong<'a>> {
    let alloc = rt.alloc();
    let mut asked = Addresses::nothing(alloc);
    let texts = given.operand_texts(alloc).map_err(|_| Wrong::OutOfMemory)?;
    if !given.has(Annotate) {
        asked.addresses = read_addresses(alloc, others(texts.as_slice()))?;
    }
    let Some(path) = given.value(Maps) else {
        return Ok(Some(asked));
    };
    let is_input = path == "-";
    if is_input && !given.has(Annotate) && asked.addresses.is_empty() {
        return Err(Wrong::Needs(Maps, Annotate));
    }
    let read = if is_input {
        read_log(alloc, &mut rt.stdin())
    } else {
        read_file(rt, path).map(Some)
    };
    let maps = match read {
        Ok(Some(maps)) => maps,
        Ok(None) => {
            let words = String::from_str(alloc, TOO_LONG).map_err(|_| Wrong::OutOfMemory)?;
            report(rt, "standard input", &Message::Words(words));
            return Ok(None);
        }
        Err(e) => {
            let name = if is_input { "standard input" } else { path };
            let fault = Fault::Section(SectionError::Unreadable);
            report(rt, name, &message_of(alloc, fault, Some(e), None));
            return Ok(None);
        }
    };
    asked.maps = Some(maps);
    asked.are_in_text = is_input && given.has(Annotate);
    Ok(Some(asked))
}

/// The bytes of the file at this path.
pub fn read_file(rt: &HostRuntime, path: &str) -> io::Result<Vec<u8>> {
    let mut bytes = Vec::new(rt.alloc());
    File::open(rt, path)?.read_to_end(&mut bytes)?;
    Ok(bytes)
}

// The bytes of a log, to its end. `None` if it is longer than the longest one.
fn read_log<R: Read>(alloc: Global, input: &mut R) -> io::Result<Option<Vec<u8>>> {
    let mut bytes = Vec::new(alloc);
    let mut chunk = Vec::filled(alloc, 0, 1 << 16)?;
    for _ in 0..u64::MAX {
        if bytes.len() > LONGEST_LOG {
            return Ok(None);
        }
        match input.read(chunk.as_mut_slice()) {
            Ok(0) => return Ok(Some(bytes)),
            Ok(count) => bytes.extend_from_slice(&chunk[..count])?,
            Err(e) if e.kind() == ErrorKind::Interrupted => {}
            Err(e) => return Err(e),
        }
    }
    Ok(Some(bytes))
}

// The texts after the first one.
fn others<'b, 'a>(texts: &'b [&'a str]) -> &'b [&'a str] {
    match texts {
        [_, others @ ..] => others,
        [] => &[],
    }
}
