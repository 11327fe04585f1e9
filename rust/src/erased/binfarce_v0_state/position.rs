// From crates/binfarce_v0_state/src/position.rt, by tools/erase.

//! Where a tree is shown, which decides how the arguments of a path are marked.

/// The position of a tree: a path as a value, a path as a type, or a trait whose `<` stays open for associated type
/// bindings.
#[derive(Clone, Copy, PartialEq, Eq, PartialOrd, Ord)]
pub enum Position {
    InValue,
    InType,
    OpenTrait,
}

/// The position of a path's parent.
#[cfg_attr(not(debug_assertions), inline(always))]
pub fn parent(position: Position) -> Position {
    match position {
        Position::InValue => Position::InValue,
        Position::InType | Position::OpenTrait => Position::InType,
    }
}

/// The text before the arguments of a path.
#[cfg_attr(not(debug_assertions), inline(always))]
pub fn value_mark(position: Position) -> &'static str {
    match position {
        Position::InValue => "::",
        Position::InType | Position::OpenTrait => "",
    }
}

/// The text after the arguments of a path.
#[cfg_attr(not(debug_assertions), inline(always))]
pub fn closing(position: Position) -> &'static str {
    match position {
        Position::InValue | Position::InType => ">",
        Position::OpenTrait => "",
    }
}

/// A position that leaves arguments open.
#[cfg_attr(not(debug_assertions), inline(always))]
pub fn is_open_trait(position: Position) -> bool {
    matches!(position, Position::OpenTrait)
}
