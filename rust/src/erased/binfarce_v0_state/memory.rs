// From crates/binfarce_v0_state/src/memory.rt, by tools/erase.

//! The memory that names are printed in, one after the other.

use crate::erased::binfarce_v0_state::state::Buffers;
use crate::shim::alloc::Global;

/// The memory that names are printed in, one after the other: at most `MOST_BYTES`. A printing doesn't see earlier
/// contents of its buffers.
pub struct Memory {
    pub alloc: Global,
    buffers: Option<Buffers>,
}

/// The most bytes that are kept.
pub const MOST_BYTES: usize = 1 << 20;

impl Memory {
    /// No memory yet.
    pub fn new(alloc: Global) -> Memory {
        Memory {
            alloc,
            buffers: None,
        }
    }

    /// The buffers of an earlier printing, or new ones.
    #[cfg_attr(not(debug_assertions), inline(always))]
    pub fn take(&mut self) -> Buffers {
        match self.buffers.take() {
            Some(buffers) => buffers,
            None => Buffers::empty(self.alloc),
        }
    }

    /// Keeps the buffers of a printing for the next one, unless they take more than `MOST_BYTES`.
    #[cfg_attr(not(debug_assertions), inline(always))]
    pub fn put_back(&mut self, buffers: Buffers) {
        self.buffers = if buffers.bytes() <= MOST_BYTES {
            Some(buffers)
        } else {
            None
        };
    }
}
