// From crates/binfarce_v0_grammar/src/positions.rt, by tools/erase.

//! Positions of a v0 name after a byte, a list and a lifetime.

use crate::erased::binfarce_v0_grammar::forms::Lifetime;
use crate::erased::binfarce_v0_grammar::numbers::byte_at;

/// The position after a byte. `None` if that byte isn't there.
#[cfg_attr(not(debug_assertions), inline(always))]
pub fn eat(part: &[u8], byte: u8, at: Option<usize>) -> Option<usize> {
    let at = at?;
    if byte_at(part, at) == byte {
        Some(at + 1)
    } else {
        None
    }
}

/// The position after a list, where the list ends there: at an `E`, and after invalid syntax.
#[cfg_attr(not(debug_assertions), inline(always))]
pub fn list_end(part: &[u8], at: Option<usize>) -> Option<Option<usize>> {
    let Some(at) = at else {
        return Some(None);
    };
    if byte_at(part, at) == b'E' {
        Some(Some(at + 1))
    } else {
        None
    }
}

/// The steps of an optional lifetime: 1 if there is an `L`.
#[cfg_attr(not(debug_assertions), inline(always))]
pub fn lifetime_steps(life: Lifetime) -> u64 {
    match life {
        Lifetime::Nothing => 0,
        Lifetime::Invalid | Lifetime::Indexed(_) => 1,
    }
}

/// The position after an optional lifetime: `None` for one that is invalid, or that the binders around it don't
/// announce.
#[cfg_attr(not(debug_assertions), inline(always))]
pub fn bound_end(binder_depth: usize, life: Lifetime, after: Option<usize>) -> Option<usize> {
    match life {
        Lifetime::Nothing => after,
        Lifetime::Invalid => None,
        Lifetime::Indexed(index) => {
            if index > binder_depth as u64 {
                None
            } else {
                after
            }
        }
    }
}

/// The position after a required lifetime: `None` also if there is no lifetime.
#[cfg_attr(not(debug_assertions), inline(always))]
pub fn required_end(binder_depth: usize, life: Lifetime, after: Option<usize>) -> Option<usize> {
    match life {
        Lifetime::Nothing | Lifetime::Invalid => None,
        Lifetime::Indexed(_) => bound_end(binder_depth, life, after),
    }
}
