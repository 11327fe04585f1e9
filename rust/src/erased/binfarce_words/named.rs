// From crates/binfarce_words/src/named.rt, by tools/erase.

//! Lookup of names.

/// An item with a name.
pub trait Named: Copy {
    /// The name.
    fn name(self) -> &'static str;
}

/// One of these with the longest common prefix with the name, if that has more than `least` bytes; otherwise `None`.
/// Allocates nothing.
pub fn nearest<T: Named>(known: &[T], name: &str, least: usize) -> Option<T> {
    let mut found = None;
    let mut most = least;
    for it in known {
        let count = shared_len(it.name(), name);
        if count > most {
            found = Some(*it);
            most = count;
        }
    }
    found
}

// The length of the longest common prefix of two names.
fn shared_len(a: &str, b: &str) -> usize {
    a.bytes().zip(b.bytes()).take_while(|(x, y)| x == y).count()
}
