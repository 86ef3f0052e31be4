//! Paths as lists of bytes.

use std::ffi::OsStr;
use std::os::unix::ffi::OsStrExt;
use std::path::{Path, PathBuf};

/// The path without a leading `./`, if it has one.
pub(crate) fn without_dot_slash(path: &Path) -> &Path {
    let bytes = path.as_os_str().as_bytes();
    match bytes.strip_prefix(b"./") {
        Some(rest) => Path::new(OsStr::from_bytes(rest)),
        None => path,
    }
}

/// What follows the last slash of a path, unless that is `.` or `..`, or the path is empty.
pub(crate) fn last_name(path: &Path) -> Option<&OsStr> {
    let bytes = path.as_os_str().as_bytes();
    let name = bytes.rsplit(|&byte| byte == b'/').next().unwrap_or(bytes);
    match name {
        b"." | b".." => None,
        _ if bytes.is_empty() => None,
        name => Some(OsStr::from_bytes(name)),
    }
}

/// The path of a name in a directory, in memory that is taken once.
pub(crate) fn joined(dir: &Path, name: &OsStr) -> PathBuf {
    let mut path = PathBuf::with_capacity(dir.as_os_str().len() + name.len() + 1);
    path.push(dir);
    path.push(name);
    path
}
