use std::path::PathBuf;
use std::{fmt, io};

/// Why a call did nothing, or what is wrong with a line or a file.
#[derive(Debug)]
pub enum Error {
    /// A path or a line isn't UTF-8.
    NotUtf8,
    /// The library is out of memory.
    Memory,
    /// A line, or some lines of a file, are invalid: the text says which, and why.
    Invalid(String),
    /// The path begins with a slash once the root of the rules is stripped.
    Outside,
    /// A search over all paths needs more states than the limit.
    TooLarge,
    /// The check of a search over all paths refuses what it left, which is never a guess.
    Rejected,
    /// A file can't be read.
    Io(io::Error),
    /// An error at a path: an entry whose name isn't UTF-8, or a directory that can't be listed.
    WithPath {
        /// The path.
        path: PathBuf,
        /// What is wrong there.
        error: Box<Error>,
    },
    /// The library answers otherwise than its header says.
    Unexpected(u32),
}

impl fmt::Display for Error {
    fn fmt(&self, f: &mut fmt::Formatter<'_>) -> fmt::Result {
        match self {
            Error::NotUtf8 => write!(f, "a text isn't UTF-8"),
            Error::Memory => write!(f, "out of memory"),
            Error::Invalid(text) => write!(f, "{text}"),
            Error::Outside => write!(f, "the path isn't below the root"),
            Error::TooLarge => write!(f, "too many states"),
            Error::Rejected => write!(f, "a search that its check rejects"),
            Error::Io(error) => write!(f, "{error}"),
            Error::WithPath { path, error } => write!(f, "{}: {error}", path.display()),
            Error::Unexpected(code) => write!(f, "the library answers {code}"),
        }
    }
}

impl std::error::Error for Error {
    fn source(&self) -> Option<&(dyn std::error::Error + 'static)> {
        match self {
            Error::Io(error) => Some(error),
            Error::WithPath { error, .. } => Some(error),
            _ => None,
        }
    }
}

impl Error {
    /// The error at a path.
    pub(crate) fn at<P: Into<PathBuf>>(self, path: P) -> Error {
        let (path, error) = (path.into(), Box::new(self));
        Error::WithPath { path, error }
    }
}

impl From<io::Error> for Error {
    fn from(error: io::Error) -> Error {
        Error::Io(error)
    }
}
