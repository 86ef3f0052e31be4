//! The names of a directory, as its host and as the library know them.

use crate::names::told;
use std::ffi::OsStr;
use std::fs::{self, FileType};
use std::io;
use std::ops::Range;
use std::os::unix::ffi::OsStrExt;
use std::path::Path;

/// So many names are read at once, and kept. A directory that has more is read as the walk goes.
const TOGETHER: usize = if cfg!(test) { 3 } else { 1_000 };

/// What a directory lists, in the system's order.
#[derive(Debug, Default)]
pub struct Listing {
    /// The names that were read last, as the library is told them, each ended by a zero.
    told: Vec<u8>,
    /// The same as the disk has them, where one is another.
    own: Option<Vec<u8>>,
    /// What each is, or the number of the system's error.
    kinds: Vec<Result<FileType, i32>>,
    /// How far these were gone through.
    at: Cursor,
    /// Where the others are read.
    rest: Option<fs::ReadDir>,
}

/// An entry of a listing.
#[derive(Clone, Debug)]
pub struct Listed {
    told: Range<usize>,
    own: Range<usize>,
    pub kind: Result<FileType, i32>,
    pub index: usize,
}

#[derive(Clone, Copy, Debug, Default)]
struct Cursor {
    index: usize,
    told: usize,
    own: usize,
}

impl Listing {
    /// Lists a directory.
    pub fn read(path: &Path) -> io::Result<Listing> {
        let mut listing = Listing {
            rest: Some(fs::read_dir(path)?),
            ..Listing::default()
        };
        listing.read_on()?;
        Ok(listing)
    }

    /// Reads on, in place of what was read before; whether there is more then.
    pub fn read_on(&mut self) -> io::Result<bool> {
        self.told.clear();
        self.kinds.clear();
        (self.own, self.at) = (None, Cursor::default());
        self.fill(TOGETHER)?;
        Ok(!self.kinds.is_empty())
    }

    /// Whether the directory is open, since there may be more in it than was read.
    pub fn is_open(&self) -> bool {
        self.rest.is_some()
    }

    /// Reads on to the end, besides what was read before.
    pub fn read_rest(&mut self) -> io::Result<()> {
        self.fill(usize::MAX)
    }

    /// Reads on, until there are so many.
    fn fill(&mut self, most: usize) -> io::Result<()> {
        while self.kinds.len() < most {
            let Some(entry) = self.rest.as_mut().and_then(Iterator::next) else {
                self.rest = None;
                break;
            };
            let entry = match entry {
                Ok(entry) => entry,
                Err(error) => {
                    *self = Listing::default();
                    return Err(error);
                }
            };
            let kind = entry.file_type();
            let kind = kind.map_err(|error| error.raw_os_error().unwrap_or(0));
            self.push(&entry.file_name(), kind);
        }
        Ok(())
    }

    fn push(&mut self, name: &OsStr, kind: Result<FileType, i32>) {
        let text = told(Path::new(name));
        if self.own.is_none() && *text != *name.as_bytes() {
            self.own = Some(self.told.clone());
        }
        for (to, bytes) in [
            (Some(&mut self.told), &*text),
            (self.own.as_mut(), name.as_bytes()),
        ] {
            if let Some(to) = to {
                to.extend_from_slice(bytes);
                to.push(0);
            }
        }
        self.kinds.push(kind);
    }

    /// All names, as `enter` of a guide takes them: none where there are more than were read, and
    /// else always one.
    pub fn names(&self) -> &[u8] {
        match (&self.rest, self.told.as_slice()) {
            (Some(_), _) => b"",
            (None, []) => b".\0",
            (None, names) => names,
        }
    }

    /// The names that were read last.
    pub fn read_last(&self) -> &[u8] {
        &self.told
    }

    /// The next entry of those that were read last.
    pub fn next(&mut self) -> Option<Listed> {
        let at = self.at;
        let (index, kind) = (at.index, *self.kinds.get(at.index)?);
        let told = ended(&self.told, at.told);
        let own = match &self.own {
            Some(own) => ended(own, at.own),
            None => told.clone(),
        };
        self.at = Cursor {
            index: index + 1,
            told: told.end + 1,
            own: own.end + 1,
        };
        Some(Listed {
            told,
            own,
            kind,
            index,
        })
    }

    /// The kind of each as a guide takes it: 2 for a directory.
    pub fn kinds(&self) -> Vec<u8> {
        let is_dir = |kind: &Result<FileType, i32>| kind.is_ok_and(|kind| kind.is_dir());
        self.kinds
            .iter()
            .map(|kind| 1 + u8::from(is_dir(kind)))
            .collect()
    }

    /// The name of an entry, as the library is told it.
    pub fn told(&self, entry: &Listed) -> &[u8] {
        &self.told[entry.told.clone()]
    }

    /// The name of an entry.
    pub fn name(&self, entry: &Listed) -> &OsStr {
        let names = self.own.as_ref().unwrap_or(&self.told);
        OsStr::from_bytes(&names[entry.own.clone()])
    }
}

/// The bytes from one on, up to a zero.
fn ended(names: &[u8], from: usize) -> Range<usize> {
    let length = names[from..].iter().take_while(|&&byte| byte != 0).count();
    from..from + length
}
