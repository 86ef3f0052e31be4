//! The disk: what a guide wants to know of a path, read from it, and what is known of this process.

use crate::library::{Given, Wanted};
use crate::names::{of_disk, told};
use std::env;
use std::fs::{self, File, OpenOptions};
use std::io::{self, Read};
use std::os::unix::fs::OpenOptionsExt;
use std::path::{Path, PathBuf};

const NOT_FOUND: u32 = 0;
const IS_A_DIRECTORY: u32 = 3;
const OTHER: u32 = 11;

/// What is known of the environment.
pub struct Known {
    /// None where it was removed.
    pub current_dir: Option<PathBuf>,
    pub home: Option<PathBuf>,
    pub config_home: Option<PathBuf>,
    pub git_global: Option<PathBuf>,
    pub git_system: Option<PathBuf>,
}

impl Known {
    /// That of this process.
    pub fn of_process() -> Known {
        let known = |name: &str| env::var_os(name).map(PathBuf::from);
        let filled = |name: &str| known(name).filter(|path| !path.as_os_str().is_empty());
        Known {
            current_dir: env::current_dir().and_then(fs::canonicalize).ok(),
            home: filled("HOME"),
            config_home: filled("XDG_CONFIG_HOME"),
            git_global: known("GIT_CONFIG_GLOBAL"),
            git_system: known("GIT_CONFIG_SYSTEM"),
        }
    }
}

/// The number of the fault that stands for what the system answered.
fn fault_of(error: &io::Error) -> u32 {
    match error.raw_os_error() {
        Some(2) => NOT_FOUND,
        Some(1 | 13) => 1,
        Some(20) => 2,
        Some(21) => IS_A_DIRECTORY,
        Some(40) => 6,
        _ => OTHER,
    }
}

fn given(kind: u32, bytes: Vec<u8>, fault: Option<u32>) -> Given {
    Given { kind, bytes, fault }
}

/// Reads what is wanted of the path that the library knows by a text.
pub fn read(wanted: Wanted, text: &[u8]) -> Given {
    let path = of_disk(text);
    if wanted == Wanted::Canonical {
        return match fs::canonicalize(&path) {
            Ok(real) => given(0, told(&real).into_owned(), None),
            Err(error) => given(0, Vec::new(), Some(fault_of(&error))),
        };
    }
    let found = match fs::metadata(&path) {
        Ok(found) => found,
        Err(error) => return given(0, Vec::new(), Some(fault_of(&error))),
    };
    match (wanted, found.is_file(), found.is_dir()) {
        (Wanted::File, true, _) => content(&path),
        (_, true, _) => given(1, Vec::new(), None),
        (Wanted::File, _, true) => given(2, Vec::new(), Some(IS_A_DIRECTORY)),
        (_, _, true) => given(2, Vec::new(), None),
        _ => given(4, Vec::new(), Some(OTHER)),
    }
}

/// `O_NONBLOCK`.
const AT_ONCE: i32 = if cfg!(target_os = "linux") { 0o4000 } else { 4 };

/// Opens what is at a path, without waiting for anyone: another may have put a pipe there since it
/// was looked at.
fn opened(path: &Path) -> io::Result<File> {
    OpenOptions::new()
        .read(true)
        .custom_flags(AT_ONCE)
        .open(path)
}

/// What can be read of a file, if it is one yet.
fn content(path: &Path) -> Given {
    let mut bytes = Vec::new();
    let ended = opened(path).and_then(|file| {
        let found = file.metadata()?;
        if !found.is_file() {
            return Err(io::Error::from(io::ErrorKind::InvalidInput));
        }
        let room = usize::try_from(found.len()).unwrap_or(0).min(1 << 20) + 1;
        bytes.reserve_exact(room);
        // (without a limit the system would be asked for the size once more)
        file.take(u64::MAX).read_to_end(&mut bytes)
    });
    given(1, bytes, ended.err().map(|error| fault_of(&error)))
}

#[cfg(test)]
mod tests {
    use super::{content, OTHER};
    use std::process::Command;
    use std::{env, fs};

    #[test]
    fn what_became_a_pipe_is_not_waited_for() {
        let pipe = env::temp_dir().join(format!("ignore_proved_pipe_{}", std::process::id()));
        let made = Command::new("mkfifo").arg(&pipe).status();
        assert!(made.is_ok_and(|it| it.success()));
        let given = content(&pipe);
        assert_eq!((given.fault, given.bytes.len()), (Some(OTHER), 0));
        fs::remove_file(&pipe).expect("the pipe goes");
    }
}
