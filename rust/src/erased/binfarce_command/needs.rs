// From crates/binfarce_command/src/needs.rt, by tools/erase.

//! Writes what files need from others.

use crate::shim::String;
use crate::erased::binfarce_command::Work;
use crate::erased::binfarce_calls::request::{form_of, naming_of};
use crate::erased::binfarce_io::fault::Fault;
use crate::erased::binfarce_jobs::files::{System, heading, open_input, refuse, refuse_argument};
use crate::erased::binfarce_jobs::hint::Hint;
use crate::erased::binfarce_jobs::limit::Verdict;
use crate::erased::binfarce_needs::{Lack, needs_text, unread};
use crate::erased::binfarce_sections::error::SectionError;
use crate::erased::binfarce_tools::writing::write_whole;
use crate::erased::binfarce_words::argument::Argument;
use crate::erased::binfarce_words::flag::Flag::Json;
use crate::shim::alloc::Global;
use crate::shim::io::Write;

impl<W: Write> Work<'_, '_, W> {
    // Writes what each file needs from others.
    pub(crate) fn write_needs(&mut self) -> Result<Verdict, Fault> {
        let given = self.given;
        let alloc = self.host.rt.alloc();
        // Objects have the names of their files, and need no headings.
        let are_several = given.operands.len() > 1 && !given.has(Json);
        let mut all = Verdict::done();
        for argument in given.operands.as_slice() {
            let done = match argument {
                Argument::Text(path) => self.write_needs_of(path, are_several)?,
                Argument::NotUtf8(at) => refuse_argument(alloc, &mut self.host, *at)?,
            };
            self.print_refusals()?;
            all = all.and_then(done);
        }
        Ok(all)
    }

    // Writes what the file at this path needs, after a line with the path if there are several, or reports why it is
    // refused.
    fn write_needs_of(&mut self, path: &str, are_several: bool) -> Result<Verdict, Fault> {
        let alloc = self.host.rt.alloc();
        let Some(input) = open_input(alloc, &mut self.host, path) else {
            return Ok(Verdict::refused());
        };
        let naming = naming_of(self.given);
        match needs_text(alloc, &input, &mut (), naming, form_of(self.given, path)) {
            Ok(text) => {
                self.out.begin(heading(alloc, path, are_several)?);
                write_whole(self.out, text.as_bytes())?;
                self.out.end()?;
                if text.is_empty() {
                    self.host.hint(path, Hint::NoneNeeded);
                }
                Ok(Verdict::done())
            }
            Err(lack) => {
                let fault = fault_of(alloc, lack);
                refuse(alloc, &mut self.host, path, &input, fault)
            }
        }
    }
}

// The fault of a file whose needs aren't shown.
fn fault_of(alloc: Global, lack: Lack) -> Fault {
    match lack {
        Lack::UnknownFormat => Fault::Section(SectionError::Unknown),
        Lack::NotElf(other) => match String::from_str(alloc, unread(other)) {
            Ok(words) => Fault::Unplaced(words),
            Err(e) => Fault::from(e),
        },
        Lack::Read(e) => Fault::from(e),
    }
}
