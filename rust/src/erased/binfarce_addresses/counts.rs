// From crates/binfarce_addresses/src/counts.rt, by tools/erase.

//! How many addresses were asked for, and how many of them a function symbol holds.

/// How many addresses were asked for, and how many were found. Each is at most `u64::MAX`.
#[derive(Debug, Clone, Copy, PartialEq)]
pub struct Counts {
    /// How many addresses were asked for. In a text an offset into another file or into a function doesn't count.
    pub asked: u64,
    /// How many of them a function symbol holds.
    pub found: u64,
    /// How many of them are offsets in a text after a name that several files have: none of these answers them.
    pub unclear: u64,
    /// How many lines have no address. In a text how many offsets are into another file or a function; for given addresses
    /// 0.
    pub missing: u64,
}

/// What is replied to a line, or to a number in a text.
#[derive(Debug, Clone, Copy, PartialEq)]
pub enum Reply {
    /// It isn't asked for: a line has no address; an offset is into another file or a function.
    Unasked,
    /// Several files have the name that is before an offset.
    Unclear,
    /// Whether a function symbol holds the address.
    Held(bool),
}

impl Counts {
    /// Nothing was asked for.
    pub fn new() -> Counts {
        Counts {
            asked: 0,
            found: 0,
            unclear: 0,
            missing: 0,
        }
    }

    /// Counts a reply.
    #[cfg_attr(not(debug_assertions), inline(always))]
    pub fn add(&mut self, reply: Reply) {
        match reply {
            Reply::Unasked => self.missing = self.missing.saturating_add(1),
            Reply::Unclear => {
                self.asked = self.asked.saturating_add(1);
                self.unclear = self.unclear.saturating_add(1);
            }
            Reply::Held(held) => {
                self.asked = self.asked.saturating_add(1);
                self.found = self.found.saturating_add(u64::from(held));
            }
        }
    }
}
