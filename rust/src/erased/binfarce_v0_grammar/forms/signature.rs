// From crates/binfarce_v0_grammar/src/forms/signature.rt, by tools/erase.

//! The front of a function type.

/// `[<binder>] ["U"] ["K" <abi>]`, the front of a `<fn-sig>`.
#[derive(Clone, Copy)]
pub struct Signature<'a> {
    /// How many lifetimes it announces.
    pub binder: u64,
    pub is_unsafe: bool,
    /// The ABI's name, ASCII, with `_` for `-`.
    pub abi: Option<&'a str>,
}
