use crate::Error;
use std::ffi::OsStr;
use std::fs::{self, FileType, Metadata};
use std::io;
use std::os::unix::fs::MetadataExt;
use std::path::{Path, PathBuf};

/// How standard input is shown.
const STDIN: &str = "<stdin>";

/// An entry of a walk, with what is wrong with its files of rules.
#[derive(Clone, Debug)]
pub struct DirEntry {
    what: What,
    err: Option<Box<Error>>,
}

#[derive(Clone, Debug)]
enum What {
    Stdin,
    Disk(OnDisk),
}

#[derive(Clone, Debug)]
struct OnDisk {
    path: PathBuf,
    kind: FileType,
    is_followed: bool,
    depth: usize,
    ino: u64,
}

impl DirEntry {
    /// The path: the root as it was given, and the names below it.
    pub fn path(&self) -> &Path {
        match &self.what {
            What::Stdin => Path::new(STDIN),
            What::Disk(disk) => &disk.path,
        }
    }

    /// The path, by value.
    pub fn into_path(self) -> PathBuf {
        match self.what {
            What::Stdin => PathBuf::from(STDIN),
            What::Disk(disk) => disk.path,
        }
    }

    /// Whether there is a symbolic link at the path, followed or not.
    pub fn path_is_symlink(&self) -> bool {
        self.disk()
            .is_some_and(|disk| disk.is_followed || disk.kind.is_symlink())
    }

    /// Whether it is standard input: the root `-`.
    pub fn is_stdin(&self) -> bool {
        matches!(self.what, What::Stdin)
    }

    /// What the system knows of it; of a link that wasn't followed, of the link.
    pub fn metadata(&self) -> Result<Metadata, Error> {
        let Some(disk) = self.disk() else {
            let error = io::Error::new(io::ErrorKind::Other, "<stdin> has no metadata");
            return Err(Error::Io(error).with_path(STDIN));
        };
        let found = metadata(&disk.path, disk.is_followed);
        found.map_err(|error| Error::of_walk(error, &disk.path, disk.depth))
    }

    /// What it is; standard input is nothing.
    pub fn file_type(&self) -> Option<FileType> {
        self.disk().map(|disk| disk.kind)
    }

    /// Its name, or the path where that has none.
    pub fn file_name(&self) -> &OsStr {
        let path = self.path();
        path.file_name().unwrap_or(path.as_os_str())
    }

    /// How many names it is below the root.
    pub fn depth(&self) -> usize {
        self.disk().map_or(0, |disk| disk.depth)
    }

    /// Its inode number; standard input has none.
    pub fn ino(&self) -> Option<u64> {
        self.disk().map(|disk| disk.ino)
    }

    /// What is wrong with the files of rules of this directory. The others of their lines count.
    pub fn error(&self) -> Option<&Error> {
        self.err.as_deref()
    }

    fn disk(&self) -> Option<&OnDisk> {
        match &self.what {
            What::Stdin => None,
            What::Disk(disk) => Some(disk),
        }
    }

    pub(crate) fn is_dir(&self) -> bool {
        self.disk().is_some_and(|disk| disk.kind.is_dir())
    }

    pub(crate) fn is_symlink(&self) -> bool {
        self.disk().is_some_and(|disk| disk.kind.is_symlink())
    }

    pub(crate) fn set_error(&mut self, error: Option<Error>) {
        self.err = error.map(Box::new);
    }

    pub(crate) fn stdin() -> DirEntry {
        DirEntry {
            what: What::Stdin,
            err: None,
        }
    }

    /// What is at a path, or where a link there leads.
    pub(crate) fn at(path: &Path, depth: usize, follows: Follows) -> io::Result<DirEntry> {
        let found = metadata(path, follows != Follows::No)?;
        let disk = OnDisk {
            path: path.to_path_buf(),
            kind: found.file_type(),
            is_followed: follows == Follows::Shown,
            depth,
            ino: found.ino(),
        };
        let what = What::Disk(disk);
        Ok(DirEntry { what, err: None })
    }

    /// An entry as its directory lists it.
    pub(crate) fn listed(path: PathBuf, kind: FileType, ino: u64, depth: usize) -> DirEntry {
        let disk = OnDisk {
            path,
            kind,
            is_followed: false,
            depth,
            ino,
        };
        let what = What::Disk(disk);
        DirEntry { what, err: None }
    }
}

/// Whether a link is followed, and whether the entry shows that.
#[derive(Clone, Copy, PartialEq, Eq)]
pub(crate) enum Follows {
    No,
    Hidden,
    Shown,
}

fn metadata(path: &Path, follows: bool) -> io::Result<Metadata> {
    match follows {
        true => fs::metadata(path),
        false => fs::symlink_metadata(path),
    }
}

/// What tells two files apart: device and inode number.
pub(crate) type Identity = (u64, u64);

/// The identity of what a path leads to.
pub(crate) fn identity(path: &Path) -> io::Result<Identity> {
    fs::metadata(path).map(|found| (found.dev(), found.ino()))
}

/// Whether an entry is the file of an identity. The system is asked only where the inode number is
/// that.
pub(crate) fn is_file(entry: &DirEntry, file: Identity) -> Result<bool, Error> {
    if entry.ino() != Some(file.1) {
        return Ok(false);
    }
    let found = identity(entry.path());
    let found = found.map_err(|error| Error::of_walk(error, entry.path(), entry.depth()))?;
    Ok(found == file)
}
