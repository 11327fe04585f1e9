// From crates/binfarce_addresses/src/names.rt, by tools/erase.

//! The readable names of function symbols, each made at most once.

use crate::shim::{CollectIn, String, Vec};
use crate::erased::binfarce_addresses::at::{Found, Places};
use crate::erased::binfarce_addresses::counts::Reply;
use crate::erased::binfarce_addresses::digits::{push_address, push_offset};
use crate::erased::binfarce_addresses::lookup::Lookup;
use crate::erased::binfarce::demangle::Demangler;
use crate::erased::binfarce_rows::json::{
    Form, push_address_member, push_number_member, push_start, push_text_member,
};
use crate::shim::alloc::{AllocError, Global};

// The most bytes of names that are kept before one more: 32 MiB.
const MOST_KEPT: usize = 1 << 25;

/// The readable names of the function symbols of places that were needed so far, and what answers the addresses of one
/// lookup with them.
///
/// Contracts speak of the entries and of the lookup.
pub struct Names<'b, 'a> {
    pub(crate) alloc: Global,
    pub(crate) places: &'b Places<'a>,
    pub(crate) lookup: Lookup<'b>,
    demangler: Demangler,
    // The names, one after the other.
    text: String,
    // Where in it the name of a place begins and ends. A name that ends where it begins is not there.
    kept: Vec<(usize, usize)>,
}

// What is answered to a line: its address, and what that symbolizes to.
#[derive(Clone, Copy)]
pub(crate) struct Answer {
    pub(crate) address: Option<u64>,
    pub(crate) found: Option<Found>,
}

impl Answer {
    // What is replied: whether a function symbol holds the address, if the line has one.
    #[cfg_attr(not(debug_assertions), inline(always))]
    pub(crate) fn reply(self) -> Reply {
        match self.address {
            Some(_) => Reply::Held(self.found.is_some()),
            None => Reply::Unasked,
        }
    }
}

impl<'b, 'a> Names<'b, 'a> {
    /// No name so far, with room for so many.
    pub(crate) fn new(
        alloc: Global,
        places: &'b Places<'a>,
        lookup: Lookup<'b>,
        room: usize,
    ) -> Result<Names<'b, 'a>, AllocError> {
        Ok(Names {
            alloc,
            places,
            lookup,
            demangler: Demangler::new(alloc),
            text: String::new(alloc),
            kept: Vec::filled(alloc, (0, 0), room)?,
        })
    }

    /// No name so far, with room for all.
    ///
    /// # Errors
    ///
    /// `AllocError` if an allocation failed.
    pub fn with_room(
        alloc: Global,
        places: &'b Places<'a>,
        lookup: Lookup<'b>,
    ) -> Result<Names<'b, 'a>, AllocError> {
        Names::new(alloc, places, lookup, places.functions.len())
    }

    /// The file's path in a text; nothing is copied.
    pub fn path(&self) -> &'b [u8] {
        self.lookup.path
    }

    /// What an address symbolizes to.
    pub fn find_address(&self, address: u64) -> Option<Found> {
        self.places.find_place(self.lookup, Some(address))
    }

    /// What an offset behind the file's name symbolizes to: one from the file's origin, or in the file, where offsets in
    /// it are looked up. Nothing if the address passes 64 bits.
    pub fn find_offset(&self, offset: u64) -> Option<Found> {
        let address = match self.lookup.size {
            Some(_) => self.lookup.in_file(offset),
            None => offset.checked_add(self.lookup.origin),
        };
        self.places.find_in(self.lookup.is_return, address)
    }

    // The answer to a line with the address, or with none.
    #[cfg_attr(not(debug_assertions), inline(always))]
    pub(crate) fn answer_to(&self, address: Option<u64>) -> Answer {
        let found = self.places.find_place(self.lookup, address);
        Answer { address, found }
    }

    // The answers to lines with the addresses, or with none.
    pub(crate) fn answers_to(&self, addresses: &[Option<u64>]) -> Result<Vec<Answer>, AllocError> {
        addresses
            .iter()
            .map(|address| self.answer_to(*address))
            .collect_in(self.alloc)
    }

    // Reads the first and the last byte of each name, or of the symbol's own if none is kept: a prefetch, without
    // which random addresses take a fifth more.
    pub(crate) fn read_ahead(&self, answers: &[Answer]) -> Result<Vec<(u8, u8)>, AllocError> {
        answers
            .iter()
            .map(|answer| self.ends_at(answer.found).unwrap_or((0, 0)))
            .collect_in(self.alloc)
    }

    fn ends_at(&self, found: Option<Found>) -> Option<(u8, u8)> {
        let (place, _) = found?;
        let own = || Some(self.places.functions.get(place)?.name);
        let name = self.name_at(place).or_else(own)?.as_bytes();
        Some((*name.first()?, *name.last()?))
    }

    // Appends the line of an answer to the text.
    pub(crate) fn push_line(&mut self, text: &mut Vec<u8>, answer: Answer) -> Result<(), AllocError> {
        match self.lookup.form {
            Form::Lines => self.push_plain(text, answer),
            Form::Objects(file, _) => {
                text.extend_from_slice(self.object_of(file, answer)?.as_bytes())
            }
        }
    }

    // Appends the line of an address to the text. Returns whether a function symbol holds it.
    pub(crate) fn push_address_line(
        &mut self,
        text: &mut Vec<u8>,
        address: u64,
    ) -> Result<bool, AllocError> {
        let answer = self.answer_to(Some(address));
        self.push_line(text, answer)?;
        Ok(answer.found.is_some())
    }

    // Appends the line that is no object.
    fn push_plain(&mut self, text: &mut Vec<u8>, answer: Answer) -> Result<(), AllocError> {
        let Some(address) = answer.address else {
            return text.extend_from_slice(b"??\n");
        };
        push_address(text, address)?;
        match answer.found {
            Some((place, offset)) => {
                self.push_name(text, place)?;
                push_offset(text, offset, b'\n')
            }
            None => text.extend_from_slice(b"??\n"),
        }
    }

    // The answer as an object.
    fn object_of(&mut self, file: &str, answer: Answer) -> Result<String, AllocError> {
        let mut object = String::new(self.alloc);
        push_start(&mut object, file)?;
        push_given(&mut object, answer.address)?;
        self.push_symbol(&mut object, answer.found)?;
        object.push_str("}\n")?;
        Ok(object)
    }

    // Appends the members of the symbol that was found, or of none.
    fn push_symbol(&mut self, text: &mut String, found: Option<Found>) -> Result<(), AllocError> {
        let Some((place, offset)) = found else {
            push_text_member(text, "name", None)?;
            return push_text_member(text, "offset", None);
        };
        self.push_name_member(text, place)?;
        push_number_member(text, "offset", offset)
    }

    // Appends the member of the name of the function symbol at a place, and keeps the name, if there is room for it.
    fn push_name_member(&mut self, text: &mut String, place: usize) -> Result<(), AllocError> {
        if let Some(name) = self.name_at(place) {
            return push_text_member(text, "name", Some(name));
        }
        self.make_room();
        let mut name = String::new(self.alloc);
        self.demangler
            .push_shown(&mut name, self.places.at(place).name)?;
        let from = self.text.as_str().len();
        self.text.push_str(name.as_str())?;
        let to = self.text.as_str().len();
        keep(&mut self.kept, place, (from, to));
        push_text_member(text, "name", Some(name.as_str()))
    }

    /// Appends the readable name of the function symbol at a place to the text, and keeps it, if there is room for it.
    ///
    /// # Errors
    ///
    /// `AllocError` if an allocation failed: the text is then unspecified.
    #[cfg_attr(not(debug_assertions), inline(always))]
    pub fn push_name(&mut self, text: &mut Vec<u8>, place: usize) -> Result<(), AllocError> {
        if let Some(name) = self.name_at(place) {
            return text.extend_from_slice(name.as_bytes());
        }
        self.make_room();
        let from = self.text.as_str().len();
        self.demangler
            .push_shown(&mut self.text, self.places.at(place).name)?;
        let to = self.text.as_str().len();
        keep(&mut self.kept, place, (from, to));
        text.extend_from_slice(&self.text.as_bytes()[from..])
    }

    // Drops the names that are kept once they pass the most that may be: names that share an end take much more memory
    // than the file that has them.
    fn make_room(&mut self) {
        if self.text.as_str().len() > MOST_KEPT {
            self.text.clear();
            self.kept.fill((0, 0));
        }
    }

    // The name that is kept at a place.
    #[cfg_attr(not(debug_assertions), inline(always))]
    fn name_at(&self, place: usize) -> Option<&str> {
        match self.kept.get(place) {
            Some((from, to)) if from < to => self.text.as_str().get(*from..*to),
            _ => None,
        }
    }
}

// Keeps a part of the text as the name at a place, if there is room for it.
fn keep(kept: &mut Vec<(usize, usize)>, place: usize, part: (usize, usize)) {
    if let Some(slot) = kept.get_mut(place) {
        *slot = part;
    }
}

// Appends the member `address`.
fn push_given(text: &mut String, address: Option<u64>) -> Result<(), AllocError> {
    match address {
        Some(address) => push_address_member(text, address),
        None => push_text_member(text, "address", None),
    }
}
