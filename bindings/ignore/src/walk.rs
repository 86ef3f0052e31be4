//! Walks by one thread, and what walks go by.

use crate::decide::{Asked, Begun, Explicit, Guide, Place, Plan, Settings};
use crate::entry::{identity, is_file, DirEntry, Follows, Identity};
use crate::error::Errors;
use crate::gitignore::{file_text, GitignoreBuilder};
use crate::incremental::IncrementalIgnore;
use crate::library::Verdict;
use crate::listing::{Listed, Listing};
use crate::names::told;
use crate::overrides::Override;
use crate::parallel::WalkParallel;
use crate::paths::joined;
use crate::reader::opened;
use crate::types::Types;
use crate::Error;
use std::cmp::Ordering;
use std::collections::VecDeque;
use std::ffi::OsStr;
use std::fs::{self, File, FileType};
use std::io;
use std::os::fd::AsFd;
use std::os::unix::fs::MetadataExt;
use std::path::{Path, PathBuf};
use std::sync::{Arc, Mutex, PoisonError};
use std::{env, fmt, vec};

type ByName = dyn Fn(&OsStr, &OsStr) -> Ordering + Send + Sync + 'static;
type ByPath = dyn Fn(&Path, &Path) -> Ordering + Send + Sync + 'static;
type Predicate = dyn Fn(&DirEntry) -> bool + Send + Sync + 'static;

/// How the entries of a directory are sorted.
#[derive(Clone)]
enum Sorter {
    ByName(Arc<ByName>),
    ByPath(Arc<ByPath>),
}

/// What a caller's function says of an entry.
#[derive(Clone)]
pub(crate) struct Filter(Arc<Predicate>);

/// What walks do, besides the rules.
#[derive(Clone)]
pub(crate) struct Manner {
    pub min_depth: usize,
    pub max_depth: Option<usize>,
    pub asks_sizes: bool,
    pub follow_links: bool,
    pub same_file_system: bool,
    pub skip: Option<Identity>,
    pub filter: Option<Filter>,
}

impl Manner {
    /// Whether an entry below a root, which the rules keep, is left out: for being standard output,
    /// for its size, as the rules say, or by the filter.
    pub(crate) fn leaves_out(
        &self,
        entry: &DirEntry,
        is_too_large: impl FnOnce(u64) -> bool,
    ) -> Result<bool, Error> {
        if let Some(stdout) = self.skip {
            if is_file(entry, stdout)? {
                return Ok(true);
            }
        }
        let found = (self.asks_sizes && !entry.is_dir()).then(|| entry.metadata());
        if found.is_some_and(|it| it.is_ok_and(|found| is_too_large(found.len()))) {
            return Ok(true);
        }
        Ok(self
            .filter
            .as_ref()
            .is_some_and(|Filter(keeps)| !keeps(entry)))
    }

    /// Whether a directory at this depth is listed.
    pub(crate) fn lists(&self, depth: usize) -> bool {
        !self.max_depth.is_some_and(|most| depth >= most)
    }
}

/// What walks and matchers go by. At first the six standard filters and `require_git` are on, and
/// all else is off or unset.
///
/// A clone is the same settings. Of a path, the first of these that says something decides, by an
/// ignoring rule at once:
///
/// 1. the overrides;
/// 2. custom files of rules, `.ignore`, `.gitignore`, the exclude file of the repository, git's
///    global file, the files of [`WalkBuilder::add_ignore`], in this order, and of each kind the
///    nearest directory first;
/// 3. the types, for a file;
/// 4. a name that begins with a dot, where nothing whitelists the path;
/// 5. the size of a file; and then the filter.
#[derive(Clone)]
pub struct WalkBuilder {
    paths: Vec<PathBuf>,
    settings: Settings,
    min_depth: Option<usize>,
    max_depth: Option<usize>,
    follow_links: bool,
    same_file_system: bool,
    threads: usize,
    skip: Option<Identity>,
    sorter: Option<Sorter>,
    filter: Option<Filter>,
}

impl fmt::Debug for WalkBuilder {
    fn fmt(&self, f: &mut fmt::Formatter<'_>) -> fmt::Result {
        f.debug_struct("WalkBuilder")
            .field("paths", &self.paths)
            .field("settings", &self.settings)
            .field("min_depth", &self.min_depth)
            .field("max_depth", &self.max_depth)
            .field("follow_links", &self.follow_links)
            .field("same_file_system", &self.same_file_system)
            .field("threads", &self.threads)
            .field("skip", &self.skip)
            .field("sorter", &self.sorter.is_some())
            .field("filter", &self.filter.is_some())
            .finish()
    }
}

impl WalkBuilder {
    /// A builder with one root.
    pub fn new<P: AsRef<Path>>(path: P) -> WalkBuilder {
        WalkBuilder::from_iter([path])
    }

    /// A builder without a root, whose walks are empty.
    pub fn empty() -> WalkBuilder {
        WalkBuilder {
            paths: Vec::new(),
            settings: Settings::at_first(),
            min_depth: None,
            max_depth: None,
            follow_links: false,
            same_file_system: false,
            threads: 0,
            skip: None,
            sorter: None,
            filter: None,
        }
    }

    /// A builder with these roots.
    #[allow(clippy::should_implement_trait)]
    pub fn from_iter<P: AsRef<Path>, I: IntoIterator<Item = P>>(paths: I) -> WalkBuilder {
        let mut builder = WalkBuilder::empty();
        for path in paths {
            builder.add(path);
        }
        builder
    }

    fn manner(&self) -> Manner {
        Manner {
            min_depth: self.min_depth.unwrap_or(0),
            max_depth: self.max_depth,
            asks_sizes: self.settings.max_filesize.is_some(),
            follow_links: self.follow_links,
            same_file_system: self.same_file_system,
            skip: self.skip,
            filter: self.filter.clone(),
        }
    }

    /// A walk by one thread.
    pub fn build(&self) -> Walk {
        Walk {
            paths: self.paths.clone().into_iter(),
            plan: Plan::new(self.settings.clone()),
            manner: self.manner(),
            sorter: self.sorter.clone(),
            guide: Mutex::new(None),
            root: None,
            device: None,
            levels: Vec::new(),
            ready: VecDeque::new(),
        }
    }

    /// The matchers of the roots, one each, in their order.
    ///
    /// They go by the settings of a walk, but for the filter, the order, standard output and
    /// devices.
    pub fn build_matchers(&self) -> Vec<IncrementalIgnore> {
        let settings = Settings {
            min_depth: self.min_depth,
            max_depth: self.max_depth,
            ..self.settings.clone()
        };
        let plan = Plan::new(settings);
        let made = |root: &PathBuf| IncrementalIgnore::new(root, &plan, self.follow_links);
        self.paths.iter().map(made).collect()
    }

    /// A walk by several threads.
    pub fn build_parallel(&self) -> WalkParallel {
        let plan = Plan::new(self.settings.clone());
        WalkParallel::new(self.paths.clone(), plan, self.manner(), self.threads)
    }

    /// Adds a root. `-` is standard input.
    pub fn add<P: AsRef<Path>>(&mut self, path: P) -> &mut WalkBuilder {
        self.paths.push(path.as_ref().to_path_buf());
        self
    }

    /// How many names below its root an entry is at most. Where it is less than what
    /// [`WalkBuilder::min_depth`] was told, it is that.
    pub fn max_depth(&mut self, depth: Option<usize>) -> &mut WalkBuilder {
        self.max_depth = match (depth, self.min_depth) {
            (Some(most), Some(least)) => Some(most.max(least)),
            _ => depth,
        };
        self
    }

    /// How many names below its root an entry is at least. Where it is more than what
    /// [`WalkBuilder::max_depth`] was told, it is that.
    ///
    /// What is above counts all the same: its files of rules are read, and what is ignored isn't
    /// entered. A walk of the original by one thread doesn't look at it.
    pub fn min_depth(&mut self, depth: Option<usize>) -> &mut WalkBuilder {
        self.min_depth = match (depth, self.max_depth) {
            (Some(least), Some(most)) => Some(least.min(most)),
            _ => depth,
        };
        self
    }

    /// Whether links are followed. A link to a directory on its own way is an error then.
    pub fn follow_links(&mut self, yes: bool) -> &mut WalkBuilder {
        self.follow_links = yes;
        self
    }

    /// The size above which a file is ignored.
    pub fn max_filesize(&mut self, filesize: Option<u64>) -> &mut WalkBuilder {
        self.settings.max_filesize = filesize;
        self
    }

    /// How many threads walk, where several do; 0, as at first, means as many as there are
    /// processors, and at most 12.
    pub fn threads(&mut self, n: usize) -> &mut WalkBuilder {
        self.threads = n;
        self
    }

    /// Reads a file of rules now, which is weaker than all others. What is wrong with it is
    /// returned, and its other lines count.
    ///
    /// They are relative to [`WalkBuilder::current_dir`], or else to the working directory; where
    /// that isn't known it is an error, and nothing is added.
    pub fn add_ignore<P: AsRef<Path>>(&mut self, path: P) -> Option<Error> {
        let path = path.as_ref();
        let root = match self.settings.rules_dir.clone() {
            Some(dir) => dir,
            None => match env::current_dir() {
                Ok(dir) => dir,
                Err(error) => return Some(error.into()),
            },
        };
        // (it is read once, since it may be a pipe)
        let (text, stopped) = match file_text(path) {
            Ok(found) => found,
            Err(error) => return Some(error),
        };
        let mut errors = Errors::default();
        GitignoreBuilder::new(&root).add_text(path, &text, &mut errors);
        errors.add(stopped);
        let text = text.into();
        self.settings.explicit.push(Explicit { root, text });
        errors.into_error()
    }

    /// Adds a name of custom files of rules. A later name is stronger than an earlier one, and all
    /// are stronger than other files.
    pub fn add_custom_ignore_filename<S: AsRef<OsStr>>(
        &mut self,
        file_name: S,
    ) -> &mut WalkBuilder {
        self.settings.custom.push(file_name.as_ref().to_os_string());
        self
    }

    /// Sets the globs that decide before all else, in place of those before.
    pub fn overrides(&mut self, overrides: Override) -> &mut WalkBuilder {
        self.settings.overrides = overrides;
        self
    }

    /// Sets the file types, in place of those before.
    pub fn types(&mut self, types: Types) -> &mut WalkBuilder {
        self.settings.types = types;
        self
    }

    /// Sets the six standard filters: `hidden`, `parents`, `ignore`, `git_ignore`, `git_global`,
    /// `git_exclude`.
    pub fn standard_filters(&mut self, yes: bool) -> &mut WalkBuilder {
        self.hidden(yes);
        self.parents(yes);
        self.ignore(yes);
        self.git_ignore(yes);
        self.git_global(yes);
        self.git_exclude(yes)
    }

    /// Whether hidden entries are ignored: those whose names begin with a dot.
    pub fn hidden(&mut self, yes: bool) -> &mut WalkBuilder {
        self.settings.hidden = yes;
        self
    }

    /// Whether the files of rules of directories above a root count.
    pub fn parents(&mut self, yes: bool) -> &mut WalkBuilder {
        self.settings.parents = yes;
        self
    }

    /// Whether `.ignore` files count.
    pub fn ignore(&mut self, yes: bool) -> &mut WalkBuilder {
        self.settings.ignore = yes;
        self
    }

    /// Whether git's global file counts:
    /// [`gitconfig_excludes_path`](crate::gitignore::gitconfig_excludes_path).
    pub fn git_global(&mut self, yes: bool) -> &mut WalkBuilder {
        self.settings.git_global = yes;
        self
    }

    /// Whether `.gitignore` files count.
    pub fn git_ignore(&mut self, yes: bool) -> &mut WalkBuilder {
        self.settings.git_ignore = yes;
        self
    }

    /// Whether the exclude files of repositories count: `.git/info/exclude`.
    pub fn git_exclude(&mut self, yes: bool) -> &mut WalkBuilder {
        self.settings.git_exclude = yes;
        self
    }

    /// Whether git's rules count in repositories only.
    pub fn require_git(&mut self, yes: bool) -> &mut WalkBuilder {
        self.settings.require_git = yes;
        self
    }

    /// Whether files of rules match both ASCII cases of a letter.
    pub fn ignore_case_insensitive(&mut self, yes: bool) -> &mut WalkBuilder {
        self.settings.case_insensitive = yes;
        self
    }

    /// Sorts the entries of each directory by their paths, for walks by one thread. It takes the
    /// place of an order before.
    pub fn sort_by_file_path<F>(&mut self, cmp: F) -> &mut WalkBuilder
    where
        F: Fn(&Path, &Path) -> Ordering + Send + Sync + 'static,
    {
        self.sorter = Some(Sorter::ByPath(Arc::new(cmp)));
        self
    }

    /// Sorts the entries of each directory by their names, for walks by one thread. It takes the
    /// place of an order before.
    pub fn sort_by_file_name<F>(&mut self, cmp: F) -> &mut WalkBuilder
    where
        F: Fn(&OsStr, &OsStr) -> Ordering + Send + Sync + 'static,
    {
        self.sorter = Some(Sorter::ByName(Arc::new(cmp)));
        self
    }

    /// Whether directories on another device than their root aren't entered.
    pub fn same_file_system(&mut self, yes: bool) -> &mut WalkBuilder {
        self.same_file_system = yes;
        self
    }

    /// Whether the file to which standard output goes is left out, if it goes to one now.
    pub fn skip_stdout(&mut self, yes: bool) -> &mut WalkBuilder {
        self.skip = yes.then(stdout_file).flatten();
        self
    }

    /// Keeps only entries that satisfy a predicate, in place of one before. A directory that
    /// doesn't isn't entered.
    ///
    /// It is asked last, of what is below a root and all else keeps. The original doesn't ask it of
    /// a file where [`WalkBuilder::max_filesize`] is set and one thread walks.
    pub fn filter_entry<P>(&mut self, filter: P) -> &mut WalkBuilder
    where
        P: Fn(&DirEntry) -> bool + Send + Sync + 'static,
    {
        self.filter = Some(Filter(Arc::new(filter)));
        self
    }

    /// Sets the directory to which git's global file and the files of [`WalkBuilder::add_ignore`],
    /// added from now on, are relative. At first it is the working directory.
    pub fn current_dir(&mut self, cwd: impl Into<PathBuf>) -> &mut WalkBuilder {
        self.settings.rules_dir = Some(cwd.into());
        self
    }
}

/// The file to which standard output goes.
fn stdout_file() -> Option<Identity> {
    let copy = io::stdout().as_fd().try_clone_to_owned().ok()?;
    let found = File::from(copy).metadata().ok()?;
    found.is_file().then(|| (found.dev(), found.ino()))
}

/// So many directories are open at once.
const OPEN_AT_ONCE: usize = 8;

/// A directory that is walked.
struct Level {
    place: Place,
    path: PathBuf,
    identity: Option<Identity>,
    listing: Listing,
    /// The entries, where they are sorted: then the listing is empty.
    sorted: vec::IntoIter<Result<DirEntry, Error>>,
}

/// What is next in a directory.
enum Next {
    Listed(Listed),
    Sorted(Result<DirEntry, Error>),
}

impl Level {
    fn next(&mut self, depth: usize) -> Option<Next> {
        if let Some(listed) = self.listing.next() {
            return Some(Next::Listed(listed));
        }
        let next = self.sorted.next().or_else(|| {
            let error = self.listing.next_error()?;
            Some(Err(Error::Io(error).with_depth(depth)))
        });
        next.map(Next::Sorted)
    }
}

/// The entry of a listing, in the directory at a path.
pub(crate) fn made(
    listing: &Listing,
    listed: &Listed,
    dir: &Path,
    depth: usize,
) -> Result<DirEntry, Error> {
    let path = joined(dir, listing.name(listed));
    match listed.kind {
        Ok(kind) => Ok(DirEntry::listed(path, kind, listed.ino, depth)),
        Err(number) => {
            let error = io::Error::from_raw_os_error(number);
            Err(Error::of_walk(error, &path, depth))
        }
    }
}

/// All entries of a listing, sorted. Errors come first.
fn sorted(
    listing: &mut Listing,
    dir: &Path,
    depth: usize,
    sorter: &Sorter,
) -> vec::IntoIter<Result<DirEntry, Error>> {
    let mut all = Vec::new();
    while let Some(listed) = listing.next() {
        all.push(made(listing, &listed, dir, depth));
    }
    while let Some(error) = listing.next_error() {
        all.push(Err(Error::Io(error).with_depth(depth)));
    }
    all.sort_by(|one, other| match (one, other) {
        (Ok(one), Ok(other)) => match sorter {
            Sorter::ByName(compare) => compare(one.file_name(), other.file_name()),
            Sorter::ByPath(compare) => compare(one.path(), other.path()),
        },
        (one, other) => one.is_ok().cmp(&other.is_ok()),
    });
    all.into_iter()
}

/// A walk by one thread: the entries that the rules keep, a directory before what is in it.
///
/// A directory is listed, and its files of rules are read, before it is yielded. An error stands in
/// the place of what it is about, and the walk goes on.
pub struct Walk {
    paths: vec::IntoIter<PathBuf>,
    plan: Arc<Plan>,
    manner: Manner,
    sorter: Option<Sorter>,
    /// The guide, which one call has at a time.
    guide: Mutex<Option<Guide>>,
    root: Option<Place>,
    /// The device of the root, where another one isn't entered.
    device: Option<u64>,
    levels: Vec<Level>,
    ready: VecDeque<Result<DirEntry, Error>>,
}

impl Walk {
    /// The walk of a root by the settings at first.
    pub fn new<P: AsRef<Path>>(path: P) -> Walk {
        WalkBuilder::new(path).build()
    }

    /// The walk of these roots by the settings at first.
    #[allow(clippy::should_implement_trait)]
    pub fn from_iter<P: AsRef<Path>, I: IntoIterator<Item = P>>(paths: I) -> Walk {
        WalkBuilder::from_iter(paths).build()
    }

    /// Begins a root.
    fn start(&mut self, path: &Path) -> Result<(), Error> {
        if path == Path::new("-") {
            self.ready.push_back(Ok(DirEntry::stdin()));
            return Ok(());
        }
        let failed = |error| Error::of_walk(error, path, 0);
        self.device = match self.manner.same_file_system {
            true => Some(identity(path).map_err(failed)?.0),
            false => None,
        };
        let mut entry = DirEntry::at(path, 0, Follows::No).map_err(failed)?;
        let mut is_dir = entry.is_dir();
        if entry.is_symlink() {
            let target = fs::metadata(path).map_err(failed)?;
            is_dir = target.is_dir();
            if self.manner.follow_links || target.is_file() {
                entry = DirEntry::at(path, 0, Follows::Shown).map_err(failed)?;
            }
        }
        if is_dir {
            let Begun { place, above, own } = guide_of(&mut self.guide, &self.plan).root(path);
            self.ready.extend(above.map(Err));
            self.root = Some(place.clone());
            self.enter(entry, Parent::Root(place, own));
        } else {
            self.give(entry);
        }
        Ok(())
    }

    /// Leaves the last directory. A root is left where the next one begins.
    fn leave(&mut self) {
        if let Some(left) = self.levels.pop() {
            if !self.levels.is_empty() {
                guide_of(&mut self.guide, &self.plan).leave(&left.place);
            }
        }
    }

    /// Lists a directory: whole, where many are open that are read as the walk goes.
    fn listing(&self, path: &Path) -> io::Result<Listing> {
        let mut listing = Listing::read(path)?;
        let is_open = |level: &&Level| level.listing.is_open();
        if listing.is_open() && self.levels.iter().filter(is_open).count() >= OPEN_AT_ONCE {
            listing.read_rest();
        }
        Ok(listing)
    }

    fn give(&mut self, entry: DirEntry) {
        if entry.depth() >= self.manner.min_depth {
            self.ready.push_back(Ok(entry));
        }
    }

    /// Enters a directory, unless it is as deep as the walk goes, or on another device, and gives
    /// it.
    fn enter(&mut self, mut entry: DirEntry, parent: Parent) {
        let depth = entry.depth();
        let path = entry.path().to_path_buf();
        let failed = |error| Err(Error::of_walk(error, &path, depth));
        let watches_device = depth > 0 && self.device.is_some();
        let asks = self.manner.follow_links || watches_device;
        let found = match (self.manner.lists(depth) && asks).then(|| identity(&path)) {
            Some(Err(error)) if watches_device => return self.ready.push_back(failed(error)),
            found => found.and_then(Result::ok),
        };
        let is_elsewhere = watches_device && found.map(|it| it.0) != self.device;
        if !self.manner.lists(depth) || is_elsewhere {
            return self.give(entry);
        }
        let listing = match self.listing(&path) {
            Ok(listing) => listing,
            Err(error) => {
                self.give(entry);
                return self.ready.push_back(failed(error));
            }
        };
        let (place, error) = match parent {
            Parent::Root(place, own) => (place, own),
            Parent::Dir(parent) => {
                let name = told(Path::new(entry.file_name()));
                let guide = guide_of(&mut self.guide, &self.plan);
                guide.enter(&parent, &name, listing.names())
            }
        };
        entry.set_error(error);
        self.give(entry);
        self.levels.push(Level {
            place,
            path,
            identity: found,
            listing,
            sorted: Vec::new().into_iter(),
        });
        // (after a panic of the order the directory is one that was entered, and is left)
        if let (Some(sorter), Some(level)) = (&self.sorter, self.levels.last_mut()) {
            let mut whole = std::mem::take(&mut level.listing);
            level.sorted = sorted(&mut whole, &level.path, depth + 1, sorter);
        }
    }

    /// What becomes of an entry as it is listed. It is made only where the rules keep it.
    fn visit_listed(&mut self, listed: &Listed) -> Result<(), Error> {
        let depth = self.levels.len();
        let Some(level) = self.levels.last() else {
            return Ok(());
        };
        let is_followed = |kind: &FileType| self.manner.follow_links && kind.is_symlink();
        if let Some(kind) = listed.kind.ok().filter(|kind| !is_followed(kind)) {
            let asked = Asked {
                name: level.listing.name(listed),
                told: level.listing.told(listed),
                dir: &level.path,
                is_dir: kind.is_dir(),
                size: None,
            };
            let guide = guide_of(&mut self.guide, &self.plan);
            if guide.decide(&level.place, &asked).verdict == Verdict::Ignore {
                return Ok(());
            }
            let entry = made(&level.listing, listed, &level.path, depth)?;
            return self.keep(entry);
        }
        let entry = made(&level.listing, listed, &level.path, depth)?;
        self.visit(entry)
    }

    /// What becomes of an entry below a root.
    fn visit(&mut self, mut entry: DirEntry) -> Result<(), Error> {
        if self.manner.follow_links && entry.is_symlink() {
            entry = followed(&entry)?;
            if entry.is_dir() {
                let above = self
                    .levels
                    .iter()
                    .rev()
                    .map(|it| (it.path.as_path(), it.identity));
                check_loop(&entry, above)?;
            }
        }
        let guide = guide_of(&mut self.guide, &self.plan);
        match ignores(guide, self.levels.last(), &entry, None) {
            true => Ok(()),
            false => self.keep(entry),
        }
    }

    /// What becomes of an entry that the rules keep.
    fn keep(&mut self, entry: DirEntry) -> Result<(), Error> {
        let (guide, plan, level) = (&mut self.guide, &self.plan, self.levels.last());
        let is_too_large = |size| ignores(guide_of(guide, plan), level, &entry, Some(size));
        if self.manner.leaves_out(&entry, is_too_large)? {
            return Ok(());
        }
        match self.levels.last().map(|level| level.place.clone()) {
            Some(place) if entry.is_dir() => self.enter(entry, Parent::Dir(place)),
            _ => self.give(entry),
        }
        Ok(())
    }
}

/// The directory in which one is entered; a root was entered before, and its problem is known.
enum Parent {
    Root(Place, Option<Error>),
    Dir(Place),
}

/// Whether the rules ignore an entry of a directory, of which the size may be known.
fn ignores(guide: &mut Guide, level: Option<&Level>, entry: &DirEntry, size: Option<u64>) -> bool {
    let name = entry.file_name();
    level.is_some_and(|level| {
        let asked = Asked {
            name,
            told: &told(Path::new(name)),
            dir: &level.path,
            is_dir: entry.is_dir(),
            size,
        };
        guide.decide(&level.place, &asked).verdict == Verdict::Ignore
    })
}

/// The guide, which is made where it is wanted first.
fn guide_of<'g>(guide: &'g mut Mutex<Option<Guide>>, plan: &Arc<Plan>) -> &'g mut Guide {
    let guide = guide.get_mut().unwrap_or_else(PoisonError::into_inner);
    guide.get_or_insert_with(|| Guide::new(plan, false))
}

/// The entry to which a link leads.
fn followed(link: &DirEntry) -> Result<DirEntry, Error> {
    let found = DirEntry::at(link.path(), link.depth(), Follows::Shown);
    found.map_err(|error| Error::of_walk(error, link.path(), link.depth()))
}

/// An error where a followed link leads to a directory on its way.
pub(crate) fn check_loop<'a>(
    link: &DirEntry,
    mut above: impl Iterator<Item = (&'a Path, Option<Identity>)>,
) -> Result<(), Error> {
    // (as in the original the directory is opened, so one that can't be is an error)
    let found = opened(link.path()).and_then(|file| file.metadata());
    let found = found.map_err(|error| Error::of_walk(error, link.path(), link.depth()))?;
    let found = (found.dev(), found.ino());
    match above.find(|(_, identity)| *identity == Some(found)) {
        None => Ok(()),
        Some((ancestor, _)) => {
            let (ancestor, child) = (ancestor.to_path_buf(), link.path().to_path_buf());
            Err(Error::Loop { ancestor, child }.with_depth(link.depth()))
        }
    }
}

impl Iterator for Walk {
    type Item = Result<DirEntry, Error>;

    fn next(&mut self) -> Option<Self::Item> {
        loop {
            if let Some(item) = self.ready.pop_front() {
                return Some(item);
            }
            let depth = self.levels.len();
            let result = match self.levels.last_mut().map(|level| level.next(depth)) {
                Some(Some(Next::Listed(listed))) => self.visit_listed(&listed),
                Some(Some(Next::Sorted(Ok(entry)))) => self.visit(entry),
                Some(Some(Next::Sorted(Err(error)))) => Err(error),
                Some(None) => {
                    self.leave();
                    Ok(())
                }
                None => {
                    if let Some(root) = self.root.take() {
                        guide_of(&mut self.guide, &self.plan).leave(&root);
                    }
                    let path = self.paths.next()?;
                    self.start(&path)
                }
            };
            if let Err(error) = result {
                return Some(Err(error));
            }
        }
    }
}

impl std::iter::FusedIterator for Walk {}
