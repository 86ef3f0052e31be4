//! What a guide wants to know, read from the disk.

use crate::library::{Fault, Given, Kind, Wanted};
use crate::names::{of_disk, told};
use std::fs::{self, File, OpenOptions};
use std::io::{self, Read};
use std::os::unix::fs::OpenOptionsExt;
use std::path::Path;
use std::sync::Arc;

/// That nothing is at a path.
pub(crate) fn nothing() -> Given {
    failed(Kind::Nothing, Fault::NotFound)
}

fn failed(kind: Kind, fault: Fault) -> Given {
    Given {
        kind,
        bytes: Arc::default(),
        fault: Some(fault),
    }
}

/// The fault that stands for what the system answered.
fn fault_of(error: &io::Error) -> Fault {
    match error.raw_os_error() {
        Some(2) => Fault::NotFound,
        Some(1 | 13) => Fault::PermissionDenied,
        Some(20) => Fault::NotADirectory,
        Some(21) => Fault::IsADirectory,
        Some(40) => Fault::LinkLimit,
        _ => Fault::Other,
    }
}

/// What the system answered, by the fault that stands for it.
pub(crate) fn error_of(fault: Fault) -> io::Error {
    match fault {
        Fault::NotFound => io::Error::from_raw_os_error(2),
        Fault::PermissionDenied => io::Error::from_raw_os_error(13),
        Fault::NotADirectory => io::Error::from_raw_os_error(20),
        Fault::IsADirectory => io::Error::from_raw_os_error(21),
        Fault::LinkLimit => io::Error::from_raw_os_error(40),
        Fault::InvalidData => io::Error::new(
            io::ErrorKind::InvalidData,
            "stream did not contain valid UTF-8",
        ),
        Fault::Other => io::Error::new(io::ErrorKind::Other, "input or output failed"),
    }
}

/// Reads what is wanted of the path that the library knows by a text.
pub(crate) fn read(wanted: Wanted, text: &[u8]) -> Given {
    let path = of_disk(text);
    if wanted == Wanted::Canonical {
        return canonical(&path);
    }
    let found = match fs::metadata(&path) {
        Ok(found) => found,
        Err(error) => return failed(Kind::Nothing, fault_of(&error)),
    };
    let kind = match found.file_type() {
        it if it.is_file() => Kind::File,
        it if it.is_dir() => Kind::Dir,
        _ => Kind::Other,
    };
    match (wanted, kind) {
        (Wanted::Kind, _) => Given {
            kind,
            bytes: Arc::default(),
            fault: None,
        },
        (_, Kind::File) => content(&path),
        (_, Kind::Dir) => failed(kind, Fault::IsADirectory),
        _ => failed(kind, Fault::Other),
    }
}

fn canonical(path: &Path) -> Given {
    match fs::canonicalize(path) {
        Ok(real) => Given {
            kind: Kind::Nothing,
            bytes: Arc::new(told(&real).into_owned()),
            fault: None,
        },
        Err(error) => failed(Kind::Nothing, fault_of(&error)),
    }
}

/// `O_NONBLOCK`.
const AT_ONCE: i32 = if cfg!(target_os = "linux") { 0o4000 } else { 4 };

/// Opens what is at a path, without waiting for anyone: another may have put a pipe there since it
/// was looked at.
pub(crate) fn opened(path: &Path) -> io::Result<File> {
    OpenOptions::new()
        .read(true)
        .custom_flags(AT_ONCE)
        .open(path)
}

/// What can be read of a file, if it is one yet.
fn content(path: &Path) -> Given {
    let mut bytes = Vec::new();
    let ended = opened(path).and_then(|file| {
        let found = file.metadata()?;
        if !found.is_file() {
            return Err(io::Error::from(io::ErrorKind::InvalidInput));
        }
        let room = usize::try_from(found.len()).unwrap_or(0).min(1 << 20) + 1;
        bytes.reserve_exact(room);
        // (without a limit the system would be asked for the size once more)
        file.take(u64::MAX).read_to_end(&mut bytes)
    });
    Given {
        kind: Kind::File,
        bytes: Arc::new(bytes),
        fault: ended.err().map(|error| fault_of(&error)),
    }
}

#[cfg(test)]
mod tests {
    use super::{content, opened};
    use crate::library::Fault;
    use std::process::Command;
    use std::{env, fs};

    #[test]
    fn what_became_a_pipe_is_not_waited_for() {
        let pipe = env::temp_dir().join(format!("ignore_pipe_{}", std::process::id()));
        let made = Command::new("mkfifo").arg(&pipe).status();
        assert!(made.is_ok_and(|it| it.success()));
        let given = content(&pipe);
        assert_eq!((given.fault, given.bytes.len()), (Some(Fault::Other), 0));
        assert!(opened(&pipe).is_ok());
        fs::remove_file(&pipe).expect("the pipe goes");
    }
}
