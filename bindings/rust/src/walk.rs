//! Walks of a directory on disk, by the answers of a guide.

use crate::gitignore::{done, error_of};
use crate::host::read;
use crate::library::{Found, Guide, Spot, IGNORE, NONE, WHITELIST};
use crate::listing::{Listed, Listing};
use crate::names::{is_utf8, told};
use crate::{Error, WalkBuilder};
use std::fs::{self, FileType};
use std::io;
use std::path::{Path, PathBuf};

/// An entry of a walk.
#[derive(Debug)]
pub struct DirEntry {
    path: PathBuf,
    kind: FileType,
    depth: usize,
}

impl DirEntry {
    /// The path: the root, and the names below it.
    pub fn path(&self) -> &Path {
        &self.path
    }

    /// The path, by value.
    pub fn into_path(self) -> PathBuf {
        self.path
    }

    /// What it is; a link isn't followed.
    pub fn file_type(&self) -> FileType {
        self.kind
    }

    /// How many names it is below the root.
    pub fn depth(&self) -> usize {
        self.depth
    }
}

/// So many directories are open at once.
const OPEN_AT_ONCE: usize = 8;

/// A directory that was entered, with what becomes of its entries.
struct Folder {
    place: Spot,
    path: PathBuf,
    listing: Listing,
    codes: Vec<u8>,
}

/// A walk: the entries below a root that no rule ignores, a directory before what is in it, as the
/// system lists them. Links aren't followed. A directory that can't be listed is an error in the
/// place of its entries, and an entry whose name isn't UTF-8 is one in its own; both have the path.
/// What is in a directory with such a name is yielded.
pub struct Walk {
    guide: Guide,
    asks_sizes: bool,
    folders: Vec<Folder>,
    /// The directory that is entered next.
    waiting: Option<PathBuf>,
}

impl Walk {
    /// The walk of a root by the settings at first.
    pub fn new<P: AsRef<Path>>(root: P) -> Result<Walk, Error> {
        WalkBuilder::new(root)?.build()
    }

    pub(crate) fn by(guide: Guide, root: PathBuf, asks_sizes: bool) -> Walk {
        Walk {
            guide,
            asks_sizes,
            folders: Vec::new(),
            waiting: Some(root),
        }
    }

    /// Lists a directory, and enters it.
    fn enter(&mut self, path: PathBuf) -> Result<(), Error> {
        let listing = match self.listing(&path) {
            Ok(listing) => listing,
            Err(error) => return Err(Error::Io(error).at(path)),
        };
        let place = match (self.folders.last(), path.file_name()) {
            (Some(parent), Some(name)) => {
                let (place, name) = (parent.place, told(Path::new(name)));
                self.guide.enter(place, &name, listing.names(), &mut read)
            }
            _ => self.guide.root(&told(&path), &mut read),
        };
        self.folders.push(Folder {
            place: place.map_err(error_of)?,
            path,
            listing,
            codes: Vec::new(),
        });
        self.decide()
    }

    /// Lists a directory: whole, where many are open that are read as the walk goes.
    fn listing(&self, path: &Path) -> io::Result<Listing> {
        let mut listing = Listing::read(path)?;
        let is_open = |folder: &&Folder| folder.listing.is_open();
        if listing.is_open() && self.folders.iter().filter(is_open).count() >= OPEN_AT_ONCE {
            listing.read_rest()?;
        }
        Ok(listing)
    }

    /// Decides on what was read last of the last directory.
    fn decide(&mut self) -> Result<(), Error> {
        let Some(folder) = self.folders.last_mut() else {
            return Ok(());
        };
        let (names, kinds) = (folder.listing.read_last(), folder.listing.kinds());
        folder.codes.clear();
        if kinds.is_empty() {
            return Ok(());
        }
        let (place, codes) = (folder.place, &mut folder.codes);
        let decided = done(self.guide.decide_all(place, names, &kinds, codes));
        if decided.is_err() {
            folder.listing = Listing::default();
        }
        decided
    }

    /// Reads on in the last directory, or leaves it where there is no more.
    fn go_on(&mut self) -> Result<(), Error> {
        let Some(folder) = self.folders.last_mut() else {
            return Ok(());
        };
        match folder.listing.read_on() {
            Ok(true) => return self.decide(),
            Ok(false) => {}
            Err(error) => return Err(Error::Io(error).at(&folder.path)),
        }
        let place = folder.place;
        self.folders.pop();
        done(self.guide.leave(place))
    }

    /// What becomes of an entry of the last directory that the rules keep, if it is yielded.
    fn entry(&mut self, listed: &Listed) -> Result<Option<DirEntry>, Error> {
        let depth = self.folders.len();
        let Some(folder) = self.folders.last() else {
            return Ok(None);
        };
        let (code, name) = (folder.codes[listed.index], folder.listing.name(listed));
        let mut path = PathBuf::with_capacity(folder.path.as_os_str().len() + name.len() + 1);
        path.push(&folder.path);
        path.push(name);
        let kind = match listed.kind {
            Ok(kind) => kind,
            Err(number) => return Err(Error::Io(io::Error::from_raw_os_error(number)).at(path)),
        };
        if self.asks_sizes && !kind.is_dir() {
            if let Ok(found) = fs::symlink_metadata(&path) {
                let (place, name) = (folder.place, folder.listing.told(listed));
                let (size, mut rest) = (found.len(), Found::default());
                match self.guide.decide(place, name, false, size, &mut rest) {
                    IGNORE => return Ok(None),
                    NONE | WHITELIST => {}
                    code => return Err(error_of(code)),
                }
            }
        }
        if kind.is_dir() && code & 4 != 0 {
            self.waiting = Some(path.clone());
        }
        if code & 8 == 0 {
            return Ok(None);
        }
        if !is_utf8(name) {
            return Err(Error::NotUtf8.at(path));
        }
        Ok(Some(DirEntry { path, kind, depth }))
    }
}

impl Iterator for Walk {
    type Item = Result<DirEntry, Error>;

    fn next(&mut self) -> Option<Self::Item> {
        loop {
            if let Some(path) = self.waiting.take() {
                if let Err(error) = self.enter(path) {
                    return Some(Err(error));
                }
            }
            let folder = self.folders.last_mut()?;
            let Some(listed) = folder.listing.next() else {
                match self.go_on() {
                    Err(error) => return Some(Err(error)),
                    Ok(()) => continue,
                }
            };
            if u32::from(folder.codes[listed.index] & 3) == IGNORE {
                continue;
            }
            if let Some(item) = self.entry(&listed).transpose() {
                return Some(item);
            }
        }
    }
}
