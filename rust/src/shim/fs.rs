//! Files that are read at offsets.

use super::HostRuntime;
use std::fs::Metadata;
use std::io::{self, Read};
#[cfg(any(not(unix), binfarce_seeks))]
use std::io::{Seek, SeekFrom};

/// An opened file.
#[derive(Debug)]
pub struct File(std::fs::File);

impl File {
    /// Opens the file at this path, to be read.
    pub fn open(_: &HostRuntime, path: &str) -> io::Result<File> {
        std::fs::File::open(path).map(File)
    }

    pub fn metadata(&self) -> io::Result<Metadata> {
        self.0.metadata()
    }

    /// Fills the buffer with the bytes from the offset on. Where `read` goes on doesn't change.
    #[cfg(all(unix, not(binfarce_seeks)))]
    pub fn read_exact_at(&self, buf: &mut [u8], offset: u64) -> io::Result<()> {
        std::os::unix::fs::FileExt::read_exact_at(&self.0, buf, offset)
    }

    /// The same, where the system has no reads at offsets: it goes there and back.
    #[cfg(any(not(unix), binfarce_seeks))]
    pub fn read_exact_at(&self, buf: &mut [u8], offset: u64) -> io::Result<()> {
        let mut file = &self.0;
        let place = file.stream_position()?;
        let read = file.seek(SeekFrom::Start(offset)).and_then(|_| file.read_exact(buf));
        file.seek(SeekFrom::Start(place))?;
        read
    }
}

impl Read for File {
    fn read(&mut self, buf: &mut [u8]) -> io::Result<usize> {
        self.0.read(buf)
    }
}
