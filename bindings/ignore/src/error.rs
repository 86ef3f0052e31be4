use std::path::{Path, PathBuf};
use std::{fmt, io};

/// What is wrong with a file of rules, with a glob, or in a walk.
#[derive(Debug)]
pub enum Error {
    /// Several things are wrong, and the rest counts: each line of a file of rules that is invalid,
    /// say.
    Partial(Vec<Error>),
    /// An error in a line of a file.
    WithLineNumber {
        /// The number of the line, from 1.
        line: u64,
        /// What is wrong there.
        err: Box<Error>,
    },
    /// An error at a path.
    WithPath {
        /// The path.
        path: PathBuf,
        /// What is wrong there.
        err: Box<Error>,
    },
    /// An error of a walk, so many names below its root.
    WithDepth {
        /// How many names.
        depth: usize,
        /// What is wrong there.
        err: Box<Error>,
    },
    /// A link that was followed leads to a directory on its own way.
    Loop {
        /// The directory.
        ancestor: PathBuf,
        /// The link.
        child: PathBuf,
    },
    /// What the system answered.
    Io(io::Error),
    /// An invalid glob. The words in `err` are the library's, which differ from the original's.
    Glob {
        /// The glob as it was given.
        glob: Option<String>,
        /// What is wrong with it.
        err: String,
    },
    /// A file type was chosen that has no definition.
    UnrecognizedFileType(String),
    /// The definition of a file type isn't one.
    InvalidDefinition,
}

impl Error {
    /// The error that this one is about, where it says only where that is.
    fn inner(&self) -> Option<&Error> {
        match self {
            Error::WithLineNumber { err, .. }
            | Error::WithPath { err, .. }
            | Error::WithDepth { err, .. } => Some(err),
            _ => None,
        }
    }

    /// The error below all that says where it is.
    fn innermost(&self) -> &Error {
        let mut at = self;
        while let Some(inner) = at.inner() {
            at = inner;
        }
        at
    }

    /// Whether the rest of what was asked for was done: a `Partial`, wherever it is.
    pub fn is_partial(&self) -> bool {
        matches!(self.innermost(), Error::Partial(_))
    }

    /// Whether it is the system's answer and nothing else.
    pub fn is_io(&self) -> bool {
        self.io_error().is_some()
    }

    /// The system's answer, if it is that alone.
    pub fn io_error(&self) -> Option<&io::Error> {
        match self.innermost() {
            Error::Partial(all) => match all.as_slice() {
                [one] => one.io_error(),
                _ => None,
            },
            Error::Io(error) => Some(error),
            _ => None,
        }
    }

    /// The system's answer by value, if it is that alone.
    pub fn into_io_error(self) -> Option<io::Error> {
        match self {
            Error::WithLineNumber { err, .. }
            | Error::WithPath { err, .. }
            | Error::WithDepth { err, .. } => err.into_io_error(),
            Error::Partial(mut all) if all.len() == 1 => all.pop()?.into_io_error(),
            Error::Io(error) => Some(error),
            _ => None,
        }
    }

    /// How many names below the root of a walk it is, if it is of a walk.
    pub fn depth(&self) -> Option<usize> {
        match self {
            Error::WithPath { err, .. } => err.depth(),
            Error::WithDepth { depth, .. } => Some(*depth),
            _ => None,
        }
    }

    pub(crate) fn with_path<P: AsRef<Path>>(self, path: P) -> Error {
        let (path, err) = (path.as_ref().to_path_buf(), Box::new(self));
        Error::WithPath { path, err }
    }

    pub(crate) fn with_depth(self, depth: usize) -> Error {
        let err = Box::new(self);
        Error::WithDepth { depth, err }
    }

    /// The error in a line of a file; an empty path is none.
    pub(crate) fn in_line(self, path: &Path, line: u64) -> Error {
        let err = Box::new(self);
        let found = Error::WithLineNumber { line, err };
        if path.as_os_str().is_empty() {
            return found;
        }
        found.with_path(path)
    }

    /// What the system answered of a path in a walk.
    pub(crate) fn of_walk(error: io::Error, path: &Path, depth: usize) -> Error {
        Error::Io(error).with_depth(depth).with_path(path)
    }

    /// The error by the library's text of it.
    pub(crate) fn of_text(text: &str) -> Error {
        let quoted = text.strip_prefix("error parsing glob '");
        if let Some((glob, err)) = quoted.and_then(|rest| rest.rsplit_once("': ")) {
            let (glob, err) = (Some(glob.to_string()), err.to_string());
            return Error::Glob { glob, err };
        }
        if let Some(name) = text.strip_prefix("unrecognized file type: ") {
            return Error::UnrecognizedFileType(name.to_string());
        }
        if text.starts_with("invalid definition") {
            return Error::InvalidDefinition;
        }
        let (glob, err) = (None, text.to_string());
        Error::Glob { glob, err }
    }

    /// The errors of a file by the library's text of them, in which the file has a label: a line
    /// for each.
    pub(crate) fn of_file(text: &str, label: &str, path: &Path, errors: &mut Errors) {
        for part in text.split('\n') {
            let rest = part
                .strip_prefix(label)
                .and_then(|it| it.strip_prefix(": line "));
            let numbered = rest.and_then(|it| it.split_once(": "));
            let line = numbered.and_then(|(line, _)| line.parse::<u64>().ok());
            let (Some((_, text)), Some(line)) = (numbered, line) else {
                errors.push(Error::of_text(part).with_path(path));
                continue;
            };
            let found = match Error::of_text(text) {
                Error::Glob { glob: None, .. } => Error::Io(not_utf8()),
                found => found,
            };
            errors.push(found.in_line(path, line));
        }
    }
}

fn not_utf8() -> io::Error {
    io::Error::new(
        io::ErrorKind::InvalidData,
        "stream did not contain valid UTF-8",
    )
}

impl Clone for Error {
    /// The same error. That of the system keeps its number, or else its kind and its text.
    fn clone(&self) -> Error {
        match self {
            Error::Partial(all) => Error::Partial(all.clone()),
            Error::WithLineNumber { line, err } => Error::WithLineNumber {
                line: *line,
                err: err.clone(),
            },
            Error::WithPath { path, err } => Error::WithPath {
                path: path.clone(),
                err: err.clone(),
            },
            Error::WithDepth { depth, err } => Error::WithDepth {
                depth: *depth,
                err: err.clone(),
            },
            Error::Loop { ancestor, child } => Error::Loop {
                ancestor: ancestor.clone(),
                child: child.clone(),
            },
            Error::Io(error) => Error::Io(match error.raw_os_error() {
                Some(number) => io::Error::from_raw_os_error(number),
                None => io::Error::new(error.kind(), error.to_string()),
            }),
            Error::Glob { glob, err } => Error::Glob {
                glob: glob.clone(),
                err: err.clone(),
            },
            Error::UnrecognizedFileType(name) => Error::UnrecognizedFileType(name.clone()),
            Error::InvalidDefinition => Error::InvalidDefinition,
        }
    }
}

impl fmt::Display for Error {
    fn fmt(&self, f: &mut fmt::Formatter<'_>) -> fmt::Result {
        match self {
            Error::Partial(all) => {
                for (at, error) in all.iter().enumerate() {
                    let line_end = if at > 0 { "\n" } else { "" };
                    write!(f, "{line_end}{error}")?;
                }
                Ok(())
            }
            Error::WithLineNumber { line, err } => write!(f, "line {line}: {err}"),
            Error::WithPath { path, err } => write!(f, "{}: {err}", path.display()),
            Error::WithDepth { err, .. } => err.fmt(f),
            Error::Loop { ancestor, child } => write!(
                f,
                "File system loop found: {} points to an ancestor {}",
                child.display(),
                ancestor.display()
            ),
            Error::Io(error) => error.fmt(f),
            Error::Glob {
                glob: Some(glob),
                err,
            } => {
                write!(f, "error parsing glob '{glob}': {err}")
            }
            Error::Glob { glob: None, err } => f.write_str(err),
            Error::UnrecognizedFileType(name) => write!(f, "unrecognized file type: {name}"),
            Error::InvalidDefinition => {
                f.write_str("invalid definition (format is type:glob, e.g., html:*.html)")
            }
        }
    }
}

impl std::error::Error for Error {}

impl From<io::Error> for Error {
    fn from(error: io::Error) -> Error {
        Error::Io(error)
    }
}

/// Errors, of which one is itself and several are a `Partial`.
#[derive(Debug, Default)]
pub(crate) struct Errors(Vec<Error>);

impl Errors {
    pub(crate) fn push(&mut self, error: Error) {
        self.0.push(error);
    }

    pub(crate) fn add(&mut self, error: Option<Error>) {
        self.0.extend(error);
    }

    /// Adds what isn't the system's answer alone.
    pub(crate) fn add_but_io(&mut self, error: Option<Error>) {
        self.0.extend(error.filter(|error| !error.is_io()));
    }

    pub(crate) fn into_error(mut self) -> Option<Error> {
        match self.0.len() {
            0 | 1 => self.0.pop(),
            _ => Some(Error::Partial(self.0)),
        }
    }
}

#[cfg(test)]
mod tests {
    use super::{Error, Errors};
    use std::path::Path;

    #[test]
    fn errors_are_taken_apart() {
        let mut errors = Errors::default();
        let text = "7: line 3: error parsing glob '[': x': unclosed\n7: line 12: bad data";
        Error::of_file(text, "7", Path::new("d/.ignore"), &mut errors);
        let Some(Error::Partial(all)) = errors.into_error() else {
            panic!("two errors");
        };
        assert_eq!(
            all[0].to_string(),
            "d/.ignore: line 3: error parsing glob '[': x': unclosed"
        );
        assert_eq!(
            all[1].to_string(),
            "d/.ignore: line 12: stream did not contain valid UTF-8"
        );
        let whole = Error::Partial(all);
        assert!(whole.is_partial() && !whole.is_io() && whole.clone().into_io_error().is_none());
    }
}
