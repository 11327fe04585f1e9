// From crates/binfarce_v0_grammar/src/punycode/text.rt, by tools/erase.

//! A text of a bounded number of characters.

/// The most characters of a decoded text, so that it needs no allocation.
pub const MOST_CHARACTERS: usize = 128;

/// A decoded text.
pub struct Decoded {
    characters: [char; MOST_CHARACTERS],
    count: usize,
}

impl Decoded {
    /// The text of the first `count` characters.
    pub fn new(characters: [char; MOST_CHARACTERS], count: usize) -> Decoded {
        Decoded { characters, count }
    }

    /// The text's characters.
    pub fn characters(&self) -> &[char] {
        &self.characters[..self.count]
    }
}
