// From crates/binfarce_identity/src/notes.rt, by tools/erase.

//! The build ID among notes (System V gABI, "Note Section").

use crate::shim::to_usize;
use crate::erased::binfarce_bytes::parser::{number_at, slice_at, to_index};
use crate::erased::binfarce_bytes::{ByteOrder, ParseError};

// The three words with which a note begins have so many bytes.
const HEAD_LENGTH: usize = 12;

const NT_GNU_BUILD_ID: u32 = 3;

// The first words of a note.
#[derive(Clone, Copy)]
pub(crate) struct NoteHead {
    namesz: u32,
    descsz: u32,
    kind: u32,
}

/// The first build ID among these notes, of a section or a segment with this alignment; a slice of them.
/// `MalformedInput` for a note before it whose descriptor ends past them.
pub(crate) fn build_id(
    notes: &[u8],
    byte_order: ByteOrder,
    align: u64,
) -> Result<Option<&[u8]>, ParseError> {
    let word = word_of(align);
    let mut start = 0;
    for _k in 0..notes.len() {
        let Some(head) = head_at(notes, start, byte_order) else {
            return Ok(None);
        };
        let offset = padded(word, HEAD_LENGTH as u64 + u64::from(head.namesz));
        let size = u64::from(head.descsz);
        let begin = to_index(start as u64 + offset);
        let Ok(descriptor) = slice_at(notes, begin, to_usize(head.descsz)) else {
            return Err(ParseError::MalformedInput);
        };
        if is_build_id(notes, start, head) {
            return Ok(Some(descriptor));
        }
        start = to_index(start as u64 + padded(word, offset + size));
    }
    Ok(None)
}

// How many bytes the words have that notes with this alignment are made of.
fn word_of(align: u64) -> u64 {
    if align == 8 { 8 } else { 4 }
}

// So many bytes with those that fill the last word.
fn padded(word: u64, n: u64) -> u64 {
    (n + (word - 1)) / word * word
}

// The head of the note that begins at `start`, if it fits.
fn head_at(notes: &[u8], start: usize, byte_order: ByteOrder) -> Option<NoteHead> {
    if notes.len() < HEAD_LENGTH || start > notes.len() - HEAD_LENGTH {
        return None;
    }
    Some(NoteHead {
        namesz: number_at(notes, start, byte_order).unwrap(),
        descsz: number_at(notes, start + 4, byte_order).unwrap(),
        kind: number_at(notes, start + 8, byte_order).unwrap(),
    })
}

// Whether the note that begins at `start` is a build ID.
fn is_build_id(notes: &[u8], start: usize, head: NoteHead) -> bool {
    head.kind == NT_GNU_BUILD_ID
        && head.namesz == 4
        && head.descsz > 0
        && notes[start + HEAD_LENGTH..start + HEAD_LENGTH + 4].starts_with(b"GNU\0")
}
