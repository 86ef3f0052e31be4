//! The names of a directory, as its host and as the library know them.

use crate::names::told;
use std::ffi::OsStr;
use std::fs::{self, FileType};
use std::io;
use std::ops::Range;
use std::os::unix::ffi::OsStrExt;
use std::os::unix::fs::DirEntryExt;
use std::path::Path;

/// What is listed of a name: its kind, or the number of the system's error, and its inode number.
#[derive(Clone, Copy, Debug)]
struct Item {
    kind: Result<FileType, i32>,
    ino: u64,
}

/// So many names are read at once, and kept. A directory that has more is read as the walk goes.
const TOGETHER: usize = if cfg!(test) { 3 } else { 1_000 };

/// What a directory lists, in the system's order.
#[derive(Debug, Default)]
pub(crate) struct Listing {
    /// The names that were read last, as the library is told them, each ended by a zero.
    told: Vec<u8>,
    /// The same as the disk has them, where one is another.
    own: Option<Vec<u8>>,
    items: Vec<Item>,
    /// How far these were gone through.
    at: Cursor,
    /// Where the others are read.
    rest: Option<fs::ReadDir>,
    /// What wasn't listed, from the last one on.
    errors: Vec<io::Error>,
}

/// An entry of a listing.
#[derive(Clone, Debug)]
pub(crate) struct Listed {
    told: Range<usize>,
    own: Range<usize>,
    pub kind: Result<FileType, i32>,
    pub ino: u64,
}

#[derive(Clone, Copy, Debug, Default)]
struct Cursor {
    index: usize,
    told: usize,
    own: usize,
}

impl Listing {
    /// Lists a directory.
    pub(crate) fn read(path: &Path) -> io::Result<Listing> {
        let mut listing = Listing {
            rest: Some(fs::read_dir(path)?),
            ..Listing::default()
        };
        listing.fill(TOGETHER);
        Ok(listing)
    }

    /// Whether the directory is open, since there may be more in it than was read.
    pub(crate) fn is_open(&self) -> bool {
        self.rest.is_some()
    }

    /// Reads on to the end.
    pub(crate) fn read_rest(&mut self) {
        self.fill(usize::MAX);
    }

    /// Reads on, until there are so many.
    fn fill(&mut self, most: usize) {
        while self.items.len() < most {
            match self.rest.as_mut().and_then(Iterator::next) {
                Some(Ok(entry)) => self.add(&entry),
                Some(Err(error)) => self.errors.insert(0, error),
                None => {
                    self.rest = None;
                    return;
                }
            }
        }
    }

    fn add(&mut self, entry: &fs::DirEntry) {
        let name = entry.file_name();
        let kind = entry
            .file_type()
            .map_err(|error| error.raw_os_error().unwrap_or(0));
        let ino = entry.ino();
        self.push(&name, Item { kind, ino });
    }

    fn push(&mut self, name: &OsStr, item: Item) {
        let text = told(Path::new(name));
        if self.own.is_none() && *text != *name.as_bytes() {
            self.own = Some(self.told.clone());
        }
        for (to, bytes) in [
            (Some(&mut self.told), &*text),
            (self.own.as_mut(), name.as_bytes()),
        ] {
            if let Some(to) = to {
                to.extend_from_slice(bytes);
                to.push(0);
            }
        }
        self.items.push(item);
    }

    /// All names, as `enter` of a guide takes them: none where there are more than were read, and
    /// else always one.
    pub(crate) fn names(&self) -> &[u8] {
        match (&self.rest, self.told.as_slice()) {
            (Some(_), _) => b"",
            (None, []) => b".\0",
            (None, names) => names,
        }
    }

    /// The next entry, of which the name stands until the one after it.
    pub(crate) fn next(&mut self) -> Option<Listed> {
        if self.at.index == self.items.len() && self.rest.is_some() {
            self.told.clear();
            self.items.clear();
            (self.own, self.at) = (None, Cursor::default());
            self.fill(TOGETHER);
        }
        let at = self.at;
        let item = self.items.get(at.index)?;
        let told = ended(&self.told, at.told);
        let own = match &self.own {
            Some(own) => ended(own, at.own),
            None => told.clone(),
        };
        let Item { kind, ino } = *item;
        self.at = Cursor {
            index: at.index + 1,
            told: told.end + 1,
            own: own.end + 1,
        };
        Some(Listed {
            told,
            own,
            kind,
            ino,
        })
    }

    /// What wasn't listed, next.
    pub(crate) fn next_error(&mut self) -> Option<io::Error> {
        self.errors.pop()
    }

    /// The name of an entry, as the library is told it.
    pub(crate) fn told(&self, entry: &Listed) -> &[u8] {
        &self.told[entry.told.clone()]
    }

    /// The name of an entry.
    pub(crate) fn name(&self, entry: &Listed) -> &OsStr {
        let names = self.own.as_ref().unwrap_or(&self.told);
        OsStr::from_bytes(&names[entry.own.clone()])
    }
}

/// The bytes from one on, up to a zero.
fn ended(names: &[u8], from: usize) -> Range<usize> {
    let length = names[from..].iter().take_while(|&&byte| byte != 0).count();
    from..from + length
}
