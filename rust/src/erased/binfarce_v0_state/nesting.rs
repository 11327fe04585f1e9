// From crates/binfarce_v0_state/src/nesting.rt, by tools/erase.

//! Where a path, a type or a const is printed.

/// The levels that are left, and the depth of binders around.
#[derive(Clone, Copy)]
pub struct Nesting {
    pub levels_left: usize,
    pub binder_depth: usize,
}

impl Nesting {
    /// This nesting under a binder of this many lifetimes, or of none.
    #[cfg_attr(not(debug_assertions), inline(always))]
    pub fn under(mut self, binder: usize) -> Nesting {
        self.binder_depth += binder;
        self
    }

    /// This nesting outside all binders.
    #[cfg_attr(not(debug_assertions), inline(always))]
    pub fn outside(mut self) -> Nesting {
        self.binder_depth = 0;
        self
    }
}
