//! A text's names: the text in parts gives what the whole text gives.
#![no_main]

use binfarce::{Form, filter, filter_stream};
use std::io::{self, Read};

/// Gives the text in parts of these lengths, again and again.
struct Parts<'a> {
    text: &'a [u8],
    lengths: std::iter::Cycle<std::slice::Iter<'a, u8>>,
}

impl Read for Parts<'_> {
    fn read(&mut self, buffer: &mut [u8]) -> io::Result<usize> {
        let wanted = self.lengths.next().map_or(1, |length| usize::from(*length) + 1);
        let (part, rest) = self.text.split_at(wanted.min(buffer.len()).min(self.text.len()));
        buffer[..part.len()].copy_from_slice(part);
        self.text = rest;
        Ok(part.len())
    }
}

binfarce_fuzz::fuzz_target!(|data| {
    let Some((first, rest)) = data.split_first() else { return };
    let form = if first & 1 == 0 { Form::Trimmed } else { Form::Complete };
    let (lengths, text) = rest.split_at(usize::from(first >> 1 & 7).min(rest.len()));
    let (mut whole, mut parted) = (Vec::new(), Vec::new());
    filter_stream(text, &mut whole, form).unwrap();
    filter_stream(Parts { text, lengths: lengths.iter().cycle() }, &mut parted, form).unwrap();
    assert_eq!(whole, parted);
    if !text.windows(2).any(|two| two == b"_Z" || two == b"_R") {
        assert_eq!(whole, text);
    }
    if let Ok(text) = std::str::from_utf8(text) {
        assert_eq!(filter(text, form).unwrap().into_bytes(), whole);
    }
});
