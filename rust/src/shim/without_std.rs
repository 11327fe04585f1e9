//! What the sources call of std that neither core nor alloc has, for a build without std: errors of bytes in memory, and files, of
//! which there are none.

/// Errors of streams and sources.
pub mod io {
    /// What kind of error it is: of Rust's, those that the sources have to do with.
    #[derive(Debug, Clone, Copy, PartialEq, Eq)]
    pub enum ErrorKind {
        Interrupted,
        OutOfMemory,
        UnexpectedEof,
        Unsupported,
        WriteZero,
    }

    /// An error.
    #[derive(Debug)]
    pub struct Error(ErrorKind);

    impl Error {
        pub fn kind(&self) -> ErrorKind {
            self.0
        }
    }

    impl From<ErrorKind> for Error {
        fn from(kind: ErrorKind) -> Error {
            Error(kind)
        }
    }

    pub type Result<T> = core::result::Result<T, Error>;

    /// What bytes are written to.
    pub trait Write {
        /// Takes some of the bytes, and gives how many.
        fn write(&mut self, bytes: &[u8]) -> Result<usize>;

        /// Passes on what was taken.
        fn flush(&mut self) -> Result<()>;
    }
}

/// Errors that programs show. Before Rust 1.81 core has no such trait.
pub mod error {
    pub trait Error {}
}

/// Files.
pub mod fs {
    use super::io::Result;

    /// An opened file: there is none.
    pub enum File {}

    /// What a file is.
    pub enum Metadata {}

    impl File {
        pub fn metadata(&self) -> Result<Metadata> {
            match *self {}
        }

        pub fn read_exact_at(&self, _: &mut [u8], _: u64) -> Result<()> {
            match *self {}
        }
    }

    impl Metadata {
        pub fn is_file(&self) -> bool {
            match *self {}
        }

        pub fn len(&self) -> u64 {
            match *self {}
        }
    }
}
