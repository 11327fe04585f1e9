// From crates/binfarce_v0_grammar/src/limits.rt, by tools/erase.

//! The limits of v0 names.

/// The most levels of nested paths, types and consts in a v0 name, both as it is read and as it is printed. The target
/// of a back reference is one level below it. A name with more is `Kind::Unknown`.
pub const MAX_LEVELS: usize = 500;

/// The most steps in the printing of a v0 name: one for each path, type, const and lifetime that it reaches, each time,
/// and one for each lifetime that a binder announces. A name with more is `Kind::Unknown`.
pub const MAX_STEPS: usize = 65_536;
