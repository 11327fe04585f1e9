//! What says from which build a file is.

use crate::Error;
use crate::any::known_format;
use crate::erased::binfarce_identity::{self as erased, read_identity as read};
use crate::shim::String as Text;
use crate::shim::alloc::Global;
#[cfg(feature = "std")]
use crate::streams::read_by_format;
use alloc::string::String;
use alloc::vec::Vec;
use core::fmt;

/// What an [`Identity`] is.
#[derive(Debug, Clone, Copy, PartialEq, Eq, Hash)]
#[non_exhaustive]
pub enum IdentityKind {
    /// The build ID of an ELF file: the descriptor of its note of the type `NT_GNU_BUILD_ID`.
    BuildId,
    /// The 16 bytes of the UUID of a Mach-O file, in its load command `LC_UUID`.
    Uuid,
    /// The 16 bytes of the GUID and the 4 bytes of the age of a PE file's PDB file, as its CodeView record has them.
    CodeView,
}

/// What says from which build a file is: files of one build have the same, the file with its debug symbols too.
///
/// Its text is that of the tools of its format: a build ID in lower-case hexadecimal digits, as `readelf -n` prints it; a UUID in
/// upper case with hyphens, as `dwarfdump --uuid`; a GUID in upper case and behind it the age, as in the paths of symbol servers.
#[derive(Debug, Clone, PartialEq, Eq, Hash)]
pub struct Identity {
    kind: IdentityKind,
    bytes: Vec<u8>,
    text: String,
}

impl Identity {
    /// Returns what it is.
    #[must_use]
    pub fn kind(&self) -> IdentityKind {
        self.kind
    }

    /// Returns its bytes, as the file has them.
    #[must_use]
    pub fn bytes(&self) -> &[u8] {
        &self.bytes
    }
}

impl fmt::Display for Identity {
    fn fmt(&self, f: &mut fmt::Formatter<'_>) -> fmt::Result {
        f.pad(&self.text)
    }
}

/// Returns an identity with its text.
fn with_text(identity: erased::Identity) -> Result<Identity, Error> {
    let mut text = Text::new(Global);
    identity.push_text(&mut text)?;
    let kind = match identity.kind {
        erased::Kind::BuildId => IdentityKind::BuildId,
        erased::Kind::Uuid => IdentityKind::Uuid,
        erased::Kind::CodeView => IdentityKind::CodeView,
    };
    Ok(Identity { kind, bytes: identity.bytes.into_std(), text: text.into_std() })
}

/// Returns what says from which build a file is: of ELF the first build ID among the notes of its sections, or of a file without
/// section headers among those of its segments; of Mach-O its UUID; of PE the GUID and the age of its PDB file. `None` if the
/// file has none.
///
/// # Errors
///
/// [`Error::UnknownFormat`]; [`Error::Parse`] where what states it ends past the file, for a note that ends past its section, a bad
/// load command, and a debug directory in no section; [`Error::OutOfMemory`] if an allocation failed.
///
/// # Examples
///
/// ```
/// // This file has no build ID.
/// # let path = concat!(env!("CARGO_MANIFEST_DIR"), "/samples/elf64-little.bin");
/// assert_eq!(binfarce::identity(&std::fs::read(path)?)?, None);
/// # Ok::<(), Box<dyn std::error::Error>>(())
/// ```
pub fn identity(file: &[u8]) -> Result<Option<Identity>, Error> {
    read(Global, &file, &mut (), known_format(file)?)?.map(with_text).transpose()
}

/// Returns [`identity`] of a file that is read at offsets: its first 512 bytes and what states it alone are read. With the feature
/// `std`.
///
/// # Errors
///
/// [`StreamError::Stream`](crate::StreamError::Stream) with that of `file`; otherwise that of [`identity`].
#[cfg(feature = "std")]
pub fn read_identity<R: std::io::Read + std::io::Seek>(file: R) -> Result<Option<Identity>, crate::StreamError> {
    let found = read_by_format(file, |file, format| Ok(read(Global, file, &mut (), format)?))?;
    Ok(found.map(with_text).transpose()?)
}
