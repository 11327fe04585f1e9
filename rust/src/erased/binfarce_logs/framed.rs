// From crates/binfarce_logs/src/framed.rt, by tools/erase.

//! Annotates the offsets of frames of perf-script(1), whose files come behind them.

use crate::shim::Vec;
use crate::erased::binfarce_logs::annotate::{Annotating, new_files};
use crate::erased::binfarce_logs::maps::name_of;
use crate::erased::binfarce_logs::modules::Module;
use crate::erased::binfarce_addresses::counts::Counts;
use crate::erased::binfarce_addresses::stream::CHUNK;
use crate::erased::binfarce_frames::Frames;
use crate::erased::binfarce_text::streams::{Pass, StreamError, pass_stream};
use crate::erased::binfarce_tools::list::Sink;
use crate::erased::binfarce_tools::writing::write_whole;
use crate::shim::alloc::{AllocError, Global};
use crate::shim::io::Read;

/// As `annotate_stream`, of a text in which the offset of each frame of perf-script(1) in one of these files is behind its
/// file: a line of at most 4,096 bytes that begins with a tab, blanks, a hexadecimal number of 1 to 16 digits and a blank,
/// and that ends with the name of a file, without folders, and `)`, has `+0x` and the number before this. So
/// `(/usr/bin/app)` becomes `(/usr/bin/app+0x18b23 <app::main+0x13>)`. Only a `)` waits for the next byte.
///
/// # Errors
///
/// Those of `annotate_stream`.
pub fn annotate_frames<R: Read, S: Sink>(
    alloc: Global,
    modules: &[Module<'_>],
    is_bare: bool,
    input: &mut R,
    out: &mut S,
) -> Result<Counts, StreamError> {
    let names = names_of(alloc, modules)?;
    let mut pass = Framing {
        frames: Frames::new(alloc, &names),
        pass: Annotating {
            alloc,
            files: new_files(alloc, modules, is_bare)?,
            kept: Vec::new(alloc),
            from: 0,
        },
    };
    pass_stream(alloc, &mut pass, CHUNK, input, out)?;
    Ok(pass.pass.files.counts)
}

// The names of these files, without folders.
fn names_of<'a>(alloc: Global, modules: &[Module<'a>]) -> Result<Vec<&'a [u8]>, AllocError> {
    let mut names = Vec::new(alloc);
    for module in modules {
        names.push(name_of(module.lookup.path))?;
    }
    Ok(names)
}

// What annotates a text with frames that comes in parts.
struct Framing<'b, 'a> {
    frames: Frames<'b>,
    pass: Annotating<'a>,
}

impl<S: Sink> Pass<S> for Framing<'_, '_> {
    fn take(&mut self, part: &[u8], out: &mut Vec<u8>) -> Result<(), AllocError> {
        let mut framed = Vec::new(self.pass.alloc);
        self.frames.take(part, &mut framed)?;
        self.pass.push(false, &framed, out)?;
        Ok(())
    }

    fn end(&mut self, _ended: bool, out: &mut Vec<u8>) -> Result<(), AllocError> {
        let mut framed = Vec::new(self.pass.alloc);
        self.frames.end(&mut framed)?;
        self.pass.push(false, &framed, out)?;
        self.pass.push(true, &[], out)?;
        Ok(())
    }

    fn write(out: &mut S, bytes: &[u8]) -> Result<(), StreamError> {
        write_whole(out, bytes).map_err(|_| StreamError::Write)
    }
}
