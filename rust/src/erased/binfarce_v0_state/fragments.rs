// From crates/binfarce_v0_state/src/fragments.rt, by tools/erase.

//! Fragments that a printing keeps of its own text: a back reference's target that was printed whole isn't read again.

use crate::shim::{String, Vec};
use crate::erased::binfarce_v0_state::position::Position;
use crate::erased::binfarce_v0_state::state::Printer;
use crate::erased::binfarce_v0_state::targets::Targets;
use crate::shim::alloc::{AllocError, Global};
use crate::shim::collections::BTreeMap;

/// What is kept: a path as it is shown in a position, a type or a const.
#[derive(Clone, Copy, PartialEq, Eq, PartialOrd, Ord)]
pub enum Production {
    Path(Position),
    Type,
    Const,
}

/// The key of a fragment, by which a back reference looks it up: a kind of production, its position, and the depth of
/// binders, which is 0 for a const.
#[derive(Clone, Copy, PartialEq, Eq, PartialOrd, Ord)]
pub struct FragmentKey {
    pub production: Production,
    pub at: usize,
    pub binder_depth: usize,
}

/// The ranges of a printing's two texts, in bytes, that show a whole path, type or const: its steps and its levels, and
/// whether an open trait was left open. One that was muted shows nothing.
#[derive(Clone, Copy)]
pub struct Fragment {
    pub key: FragmentKey,
    pub start: usize,
    pub end: usize,
    pub trimmed_start: usize,
    pub trimmed_end: usize,
    pub steps: usize,
    pub height: usize,
    pub left_open: bool,
    pub muted: bool,
}

/// The state of a printing before a path, type or const that it may keep.
#[derive(Clone, Copy)]
pub struct Mark {
    pub at: usize,
    pub start: usize,
    pub trimmed_start: usize,
    pub steps_left: usize,
    pub least_levels_left: usize,
}

/// The fragments of a printing.
pub struct Fragments {
    /// The possible targets of the name's back references: nothing else is kept.
    pub targets: Targets,
    /// The targets were looked for.
    looked_for: bool,
    /// Muted parts are kept too, and the targets are looked for only in a name that takes `MANY_VISITS`.
    silent: bool,
    /// In the order in which they were printed.
    pub fragments: Vec<Fragment>,
    /// The index of each in `fragments`, except the first `LINEAR_SEARCH`, which are searched one by one.
    index: BTreeMap<FragmentKey, usize>,
    /// A buffer for the text that is written again.
    copy: String,
}

const LINEAR_SEARCH: usize = 16;

// The bytes of a fragment, 80, and at most 96 of its entry in the index.
const FRAGMENT_BYTES: usize = 176;

// How much of a name a silent printing reads before it looks for the targets of back references: most names in programs
// end before.
const MANY_VISITS: usize = 256;

/// Forgets all fragments if an allocation failed: their ranges may no longer fit the text.
#[cfg_attr(not(debug_assertions), inline(always))]
pub fn or_forget(
    kept: &mut Vec<Fragment>,
    written: Result<(), AllocError>,
) -> Result<(), AllocError> {
    if written.is_err() {
        kept.clear();
    }
    written
}

/// Appends `text` to two other texts, and empties it. The only error is a failed allocation.
pub fn share(
    complete: &mut String,
    trimmed: &mut String,
    text: &mut String,
) -> Result<(), AllocError> {
    complete.push_str(text.as_str())?;
    trimmed.push_str(text.as_str())?;
    text.clear();
    Ok(())
}

impl Fragments {
    /// No fragment, and no memory.
    pub fn new(alloc: Global) -> Fragments {
        Fragments {
            targets: Targets::none(alloc),
            looked_for: false,
            silent: false,
            fragments: Vec::new(alloc),
            index: BTreeMap::new(alloc),
            copy: String::new(alloc),
        }
    }

    /// No fragment yet, and no target, for a printing that may be muted from its beginning. No memory is taken.
    #[cfg_attr(not(debug_assertions), inline(always))]
    pub fn begin(&mut self, silent: bool) {
        self.clear();
        self.silent = silent;
        self.targets.clear();
        self.looked_for = false;
    }

    // Looks for what the name's back references may mean.
    pub(crate) fn look_for_targets(&mut self, part: &[u8]) -> Result<(), AllocError> {
        self.looked_for = true;
        self.targets.look_for(part)
    }

    // How many bytes their memory has.
    pub(crate) fn bytes(&self) -> usize {
        self.fragments
            .capacity()
            .saturating_mul(FRAGMENT_BYTES)
            .saturating_add(self.targets.bytes())
            .saturating_add(self.copy.capacity())
    }

    // Forgets all fragments.
    #[cfg_attr(not(debug_assertions), inline(always))]
    fn clear(&mut self) {
        self.fragments.clear();
        if !self.index.is_empty() {
            self.index.clear();
        }
    }

    // Keeps a fragment.
    fn keep(&mut self, fragment: Fragment) -> Result<(), AllocError> {
        let number = self.fragments.len();
        if number >= LINEAR_SEARCH {
            self.index.insert(fragment.key, number)?;
        }
        self.fragments.push(fragment)?;
        Ok(())
    }
}

impl<'a> Printer<'a> {
    /// The current position, if what is printed there may be kept: a back reference may lead to it, and its text is
    /// written, or muted parts are kept too.
    #[cfg_attr(not(debug_assertions), inline(always))]
    pub fn keeps_at(&self) -> Option<usize> {
        let at = self.at?;
        if self.kept.targets.may_have(at) && self.keeps(at) {
            Some(at)
        } else {
            None
        }
    }

    // Whether what is printed from a position on may be kept.
    #[inline(never)]
    fn keeps(&self, at: usize) -> bool {
        self.kept.targets.has(at) && (self.kept.silent || !self.muted)
    }

    /// Looks for the targets of the name's back references where much of it was read, and they weren't looked for.
    #[cfg_attr(not(debug_assertions), inline(always))]
    pub fn look_for_targets(&mut self) -> Result<(), AllocError> {
        if !self.kept.looked_for && self.visits >= MANY_VISITS {
            self.kept.look_for_targets(self.part.as_bytes())?;
        }
        Ok(())
    }

    /// Marks where a path, a type or a const begins: from here on the least number of levels is counted anew.
    pub fn mark(&mut self, levels_left: usize, at: usize) -> Mark {
        let mark = Mark {
            at,
            start: self.text_len(),
            trimmed_start: self.trimmed_len(),
            steps_left: self.steps_left,
            least_levels_left: self.least_levels_left,
        };
        self.least_levels_left = self.least_levels_left.max(levels_left);
        mark
    }

    /// Keeps what was printed since a mark, where it was read without invalid syntax and no limit was exceeded.
    pub fn keep(
        &mut self,
        mark: Mark,
        levels_left: usize,
        binder_depth: usize,
        production: Production,
        left_open: bool,
    ) -> Result<(), AllocError> {
        let has_room = self.has_room();
        let (end, trimmed_end) = (self.text_len(), self.trimmed_len());
        let least_levels_left = self.least_levels_left;
        self.least_levels_left = mark.least_levels_left.min(least_levels_left);
        if self.limit_exceeded || !has_room {
            return Ok(());
        }
        let Some(_after) = self.at else {
            return Ok(());
        };
        let fragment = Fragment {
            key: FragmentKey {
                production,
                at: mark.at,
                binder_depth,
            },
            start: mark.start,
            end,
            trimmed_start: mark.trimmed_start,
            trimmed_end,
            steps: mark.steps_left.saturating_sub(self.steps_left),
            height: levels_left.saturating_sub(least_levels_left),
            left_open,
            muted: self.muted,
        };
        self.kept.keep(fragment)
    }

    // The fragment of this index, if it has this key.
    #[cfg_attr(not(debug_assertions), inline(always))]
    fn fragment_at(&self, number: usize, key: FragmentKey) -> Option<&Fragment> {
        let fragment = self.kept.fragments.get(number)?;
        let other = fragment.key;
        if other.at == key.at
            && other.binder_depth == key.binder_depth
            && other.production == key.production
        {
            Some(fragment)
        } else {
            None
        }
    }

    // The fragment with this key, among the first.
    fn first_fragments(&self, key: FragmentKey) -> Option<&Fragment> {
        for number in 0..self.kept.fragments.len().min(LINEAR_SEARCH) {
            let found = self.fragment_at(number, key);
            if found.is_some() {
                return found;
            }
        }
        None
    }

    // The fragment with this key.
    fn fragment(&self, key: FragmentKey) -> Option<&Fragment> {
        let found = self.first_fragments(key);
        if found.is_some() || self.kept.fragments.len() <= LINEAR_SEARCH {
            return found;
        }
        self.fragment_at(*self.kept.index.get(&key)?, key)
    }

    // Writes a fragment's ranges of both texts again, where they begin and end at character boundaries.
    fn write_again(&mut self, fragment: Fragment) -> Result<bool, AllocError> {
        if self.muted {
            return Ok(true);
        }
        if self.full {
            return self.write_both_again(fragment);
        }
        if fragment.start != fragment.trimmed_start || fragment.end != fragment.trimmed_end {
            return Ok(false);
        }
        let Some(again) = self.text.as_str().get(fragment.start..fragment.end) else {
            return Ok(false);
        };
        self.kept.copy.clear();
        self.kept.copy.push_str(again)?;
        self.text.push_str(self.kept.copy.as_str())?;
        Ok(true)
    }

    // Writes a fragment's ranges of both texts again, each after its own text. Each is copied through the shared end, which
    // is empty then.
    fn write_both_again(&mut self, fragment: Fragment) -> Result<bool, AllocError> {
        let shared = share(&mut self.complete, &mut self.trimmed, &mut self.text);
        or_forget(&mut self.kept.fragments, shared)?;
        let Some(again) = self.complete.as_str().get(fragment.start..fragment.end) else {
            return Ok(false);
        };
        let Some(trimmed) = self
            .trimmed
            .as_str()
            .get(fragment.trimmed_start..fragment.trimmed_end)
        else {
            return Ok(false);
        };
        let copied = self.text.push_str(again);
        or_forget(&mut self.kept.fragments, copied)?;
        let written = self.complete.push_str(self.text.as_str());
        or_forget(&mut self.kept.fragments, written)?;
        self.text.clear();
        let copied = self.text.push_str(trimmed);
        or_forget(&mut self.kept.fragments, copied)?;
        let written = self.trimmed.push_str(self.text.as_str());
        or_forget(&mut self.kept.fragments, written)?;
        self.text.clear();
        Ok(true)
    }

    /// Writes the fragment of a back reference's target, and continues after the reference. Returns whether it was left
    /// open. `None`, and nothing is done, where no fragment is kept, a limit would be passed, or a text is longer than
    /// is counted.
    pub fn print_kept(
        &mut self,
        levels_left: usize,
        key: FragmentKey,
        after: usize,
    ) -> Result<Option<bool>, AllocError> {
        if self.limit_exceeded || !self.has_room() {
            return Ok(None);
        }
        let Some(found) = self.fragment(key) else {
            return Ok(None);
        };
        let fragment = *found;
        let (steps, height, muted) = (fragment.steps, fragment.height, fragment.muted);
        if height > levels_left || steps > self.steps_left || (muted && !self.muted) {
            return Ok(None);
        }
        if !self.write_again(fragment)? {
            return Ok(None);
        }
        self.at = Some(after);
        self.steps_left -= steps;
        self.least_levels_left = self.least_levels_left.min(levels_left - height);
        Ok(Some(fragment.left_open))
    }
}
