// From crates/binfarce_v0_state/src/state.rt, by tools/erase.

//! The state of a printing: its position, its counts and its texts.

use crate::shim::String;
use crate::erased::binfarce_v0_state::fragments::{Fragments, or_forget, share};
use crate::erased::binfarce_v0_state::nesting::Nesting;
use crate::erased::binfarce_v0_state::text::{Disambiguator, Leaf};
use crate::erased::binfarce_v0_grammar::forms::Lifetime;
use crate::erased::binfarce_v0_grammar::identifiers::UndisambiguatedIdentifier;
use crate::erased::binfarce_v0_grammar::limits::{MAX_LEVELS, MAX_STEPS};
use crate::erased::binfarce_v0_grammar::positions::lifetime_steps;
use crate::shim::alloc::{AllocError, Global};

/// The memory of a printing, which the next one reuses without seeing its contents.
pub struct Buffers {
    complete: String,
    trimmed: String,
    text: String,
    kept: Fragments,
}

impl Buffers {
    /// Buffers without memory.
    pub fn empty(alloc: Global) -> Buffers {
        Buffers {
            complete: String::new(alloc),
            trimmed: String::new(alloc),
            text: String::new(alloc),
            kept: Fragments::new(alloc),
        }
    }

    // How many bytes their memory has.
    pub(crate) fn bytes(&self) -> usize {
        self.kept
            .bytes()
            .saturating_add(self.complete.capacity())
            .saturating_add(self.trimmed.capacity())
            .saturating_add(self.text.capacity())
    }
}

// Two texts, one after the other.
fn joined(alloc: Global, front: &str, back: &str) -> Result<String, AllocError> {
    let mut text = String::with_capacity(alloc, front.len().saturating_add(back.len()))?;
    text.push_str(front)?;
    text.push_str(back)?;
    Ok(text)
}

/// A printing of a name: it is read and written in one pass.
pub struct Printer<'a> {
    /// The part of a mangling after its prefix. It is ASCII, and doesn't change.
    pub part: &'a str,
    /// The position in the part, None after invalid syntax.
    pub at: Option<usize>,
    /// The steps that are left.
    pub steps_left: usize,
    /// The least number of levels that were left so far.
    pub least_levels_left: usize,
    /// A limit is exceeded.
    pub limit_exceeded: bool,
    /// The complete text up to the last difference between the two texts. Empty in a muted printing, and where
    /// disambiguators aren't written.
    pub complete: String,
    /// The trimmed text up to that difference, without the disambiguators of crates; empty where `complete` is.
    pub trimmed: String,
    /// The end that both texts share.
    pub text: String,
    /// Nothing is written: the path of an impl is read and not shown.
    pub muted: bool,
    /// Disambiguators of crates are written.
    pub full: bool,
    /// Within the target of a back reference.
    pub in_back_reference: bool,
    /// The first crate root.
    pub root: Option<UndisambiguatedIdentifier<'a>>,
    /// The fragments, which may be written again.
    pub kept: Fragments,
    /// How many bytes of each text are counted; all of them where it is `None`.
    pub most: Option<usize>,
    /// How many paths, types, consts and lifetimes were read, without those of fragments.
    pub visits: usize,
}

impl<'a> Printer<'a> {
    /// A printing of `part` that begins at its first position; a muted one writes nothing. Of each text only the first
    /// `most` bytes are counted: then a little more is written, and no fragment again. The buffers' earlier contents
    /// are dropped. Nothing is allocated.
    #[cfg_attr(not(debug_assertions), inline(always))]
    pub fn new(
        buffers: Buffers,
        part: &'a str,
        full: bool,
        muted: bool,
        most: Option<usize>,
    ) -> Printer<'a> {
        let Buffers {
            mut complete,
            mut trimmed,
            mut text,
            mut kept,
        } = buffers;
        complete.clear();
        trimmed.clear();
        text.clear();
        kept.begin(muted);
        Printer {
            part,
            at: Some(0),
            steps_left: MAX_STEPS,
            least_levels_left: MAX_LEVELS,
            limit_exceeded: false,
            complete,
            trimmed,
            text,
            muted,
            full,
            in_back_reference: false,
            root: None,
            kept,
            most,
            visits: 0,
        }
    }

    /// Reserves memory for texts of as many bytes as the part has, and looks for the targets of its back references. A
    /// muted printing does nothing.
    pub fn prepare(&mut self) -> Result<(), AllocError> {
        if self.muted {
            return Ok(());
        }
        self.text.reserve(self.part.len())?;
        if self.full {
            self.complete.reserve(self.part.len())?;
            self.trimmed.reserve(self.part.len())?;
        }
        self.kept.look_for_targets(self.part.as_bytes())
    }

    // How many bytes of the text are counted.
    pub(crate) fn text_len(&self) -> usize {
        self.counted_len(self.complete.len() + self.text.len())
    }

    // How many bytes of the text without disambiguators are counted.
    pub(crate) fn trimmed_len(&self) -> usize {
        self.counted_len(self.trimmed.len() + self.text.len())
    }

    // How many of so many bytes are counted.
    #[cfg_attr(not(debug_assertions), inline(always))]
    fn counted_len(&self, len: usize) -> usize {
        match self.most {
            Some(most) => len.min(most),
            None => len,
        }
    }

    // Whether both texts are whole: fewer bytes were written than are counted.
    #[cfg_attr(not(debug_assertions), inline(always))]
    pub(crate) fn has_room(&self) -> bool {
        match self.most {
            Some(most) => self.text_len() < most && self.trimmed_len() < most,
            None => true,
        }
    }

    // Whether nothing more is counted in either text.
    #[cfg_attr(not(debug_assertions), inline(always))]
    fn is_full(&self) -> bool {
        match self.most {
            Some(most) => self.text_len() >= most && self.trimmed_len() >= most,
            None => false,
        }
    }

    // Whether the text is whole: fewer bytes were written than are counted.
    #[cfg_attr(not(debug_assertions), inline(always))]
    fn is_whole(&self) -> bool {
        match self.most {
            Some(most) => self.text_len() < most,
            None => true,
        }
    }

    /// Appends the text that was written, with the disambiguators of crates if they are written; or `other` if more
    /// was written than is counted. A failed allocation leaves `out` unchanged.
    pub fn push_text(&self, alloc: Global, out: &mut String, other: &str) -> Result<(), AllocError> {
        if !self.is_whole() {
            return out.push_str(other);
        }
        if !self.full {
            return out.push_str(self.text.as_str());
        }
        let text = joined(alloc, self.complete.as_str(), self.text.as_str())?;
        out.push_str(text.as_str())
    }

    /// Copies of the complete text and of the text without the disambiguators of crates, in memory of their lengths.
    pub fn texts(&self, alloc: Global) -> Result<(String, String), AllocError> {
        let complete = joined(alloc, self.complete.as_str(), self.text.as_str())?;
        let trimmed = joined(alloc, self.trimmed.as_str(), self.text.as_str())?;
        Ok((complete, trimmed))
    }

    /// The buffers of the printing.
    #[cfg_attr(not(debug_assertions), inline(always))]
    pub fn into_buffers(self) -> Buffers {
        let Printer {
            complete,
            trimmed,
            text,
            kept,
            ..
        } = self;
        Buffers {
            complete,
            trimmed,
            text,
            kept,
        }
    }

    /// Continues at a position, or nowhere after invalid syntax.
    #[cfg_attr(not(debug_assertions), inline(always))]
    pub fn seek(&mut self, at: Option<usize>) {
        self.at = at;
    }

    /// Notes that a limit is exceeded, and stops reading.
    pub fn stop(&mut self) {
        self.at = None;
        self.limit_exceeded = true;
    }

    /// Takes steps, where so many are left.
    #[cfg_attr(not(debug_assertions), inline(always))]
    pub fn take(&mut self, count: u64) -> bool {
        if count <= self.steps_left as u64 {
            self.steps_left -= count as usize;
            true
        } else {
            self.stop();
            false
        }
    }

    /// Counts what is read.
    #[cfg_attr(not(debug_assertions), inline(always))]
    pub fn visit(&mut self) {
        self.visits = self.visits.wrapping_add(1);
    }

    /// Takes the steps of a lifetime, where so many are left.
    #[cfg_attr(not(debug_assertions), inline(always))]
    pub fn take_lifetime(&mut self, life: Lifetime) -> bool {
        if lifetime_steps(life) == 1 {
            self.visit();
        }
        self.take(lifetime_steps(life))
    }

    /// Takes a level and a step, where one of each is left. Returns the place below.
    #[cfg_attr(not(debug_assertions), inline(always))]
    pub fn enter(&mut self, here: Nesting) -> Option<Nesting> {
        if here.levels_left == 0 || self.steps_left == 0 {
            self.stop();
            return None;
        }
        let mut below = here;
        below.levels_left -= 1;
        self.steps_left -= 1;
        self.least_levels_left = self.least_levels_left.min(below.levels_left);
        self.visit();
        Some(below)
    }

    /// Writes a text.
    #[cfg_attr(not(debug_assertions), inline(always))]
    pub fn write(&mut self, text: &str) -> Result<(), AllocError> {
        if !self.muted && !text.is_empty() {
            self.text.push_str(text)?;
        }
        Ok(())
    }

    /// Writes a crate's disambiguator, to the complete text alone.
    pub fn disambiguate(&mut self, disambiguator: u64) -> Result<(), AllocError> {
        if !self.muted {
            let shared = share(&mut self.complete, &mut self.trimmed, &mut self.text);
            or_forget(&mut self.kept.fragments, shared)?;
            let written = Disambiguator(disambiguator).push(&mut self.complete);
            or_forget(&mut self.kept.fragments, written)?;
        }
        Ok(())
    }

    /// Continues at a back reference's target.
    #[cfg_attr(not(debug_assertions), inline(always))]
    pub fn enter_target(&mut self, target: usize) {
        self.at = Some(target);
        self.in_back_reference = true;
    }

    /// Continues after a back reference.
    #[cfg_attr(not(debug_assertions), inline(always))]
    pub fn leave_target(&mut self, after: usize, in_back_reference: bool) {
        self.at = if self.limit_exceeded {
            None
        } else {
            Some(after)
        };
        self.in_back_reference = in_back_reference;
    }

    /// Writes nothing, or writes again.
    #[cfg_attr(not(debug_assertions), inline(always))]
    pub fn set_muted(&mut self, muted: bool) {
        self.muted = muted;
    }

    /// Marks invalid syntax by `?`: nothing is read after it.
    pub fn invalid_syntax(&mut self) -> Result<(), AllocError> {
        self.seek(None);
        self.write("?")
    }

    /// Keeps the first crate root.
    #[cfg_attr(not(debug_assertions), inline(always))]
    pub fn keep_root(&mut self, name: UndisambiguatedIdentifier<'a>) {
        if !self.in_back_reference && self.root.is_none() {
            self.root = Some(name);
        }
    }

    /// Writes the text of a leaf.
    #[cfg_attr(not(debug_assertions), inline(always))]
    pub fn put<L: Leaf>(&mut self, leaf: L) -> Result<(), AllocError> {
        if !self.muted && !self.is_full() {
            or_forget(&mut self.kept.fragments, leaf.push(&mut self.text))?;
        }
        Ok(())
    }
}
