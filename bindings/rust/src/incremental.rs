//! Matchers of single paths, under the original's names, over directories on disk.

use crate::explanation::{reason_of, Explanation, Reason};
use crate::gitignore::{done, error_of};
use crate::host::{read, Known};
use crate::library::{self, Builder, Found, Guide, Label, Matcher, Spot, Switch, Tree, Why};
use crate::names::{of_disk, told};
use crate::walk::Walk;
use crate::Error;
use std::collections::HashMap;
use std::fs;
use std::path::{Path, PathBuf};

/// What becomes of a path: whether a walk would yield it, and whether it would enter it.
#[derive(Clone, Copy, Debug, PartialEq, Eq)]
pub struct IncrementalMatch {
    code: u32,
    descends: bool,
    is_within: bool,
}

impl IncrementalMatch {
    /// The answer of a code, or the error that it stands for.
    pub(crate) fn of(code: u32, found: Found) -> Result<IncrementalMatch, Error> {
        match code {
            library::NONE | library::IGNORE | library::WHITELIST => Ok(IncrementalMatch {
                code,
                descends: found.should_descend,
                is_within: found.is_within_depth,
            }),
            code => Err(error_of(code)),
        }
    }

    /// The answer for a path outside of the root.
    pub(crate) fn outside(is_dir: bool) -> IncrementalMatch {
        IncrementalMatch {
            code: library::NONE,
            descends: is_dir,
            is_within: true,
        }
    }

    /// Whether nothing decides.
    pub fn is_none(&self) -> bool {
        self.code == library::NONE
    }

    /// Whether the path is ignored.
    pub fn is_ignore(&self) -> bool {
        self.code == library::IGNORE
    }

    /// Whether the path is whitelisted.
    pub fn is_whitelist(&self) -> bool {
        self.code == library::WHITELIST
    }

    /// Whether a walk would enter the directory.
    pub fn should_descend(&self) -> bool {
        self.descends
    }

    /// Whether the path is as deep as the limits on depth ask.
    pub fn is_within_depth(&self) -> bool {
        self.is_within
    }
}

/// What matchers and walks of one root go by. At first the six standard filters and `require_git`
/// are on, and all else is off or unset.
pub struct WalkBuilder {
    builder: Builder,
    root: PathBuf,
    limits: Limits,
    failed: u32,
}

/// The limits of a walk, as far as the rules don't know them.
#[derive(Clone, Copy, Default)]
struct Limits {
    min_depth: Option<usize>,
    max_depth: Option<usize>,
    max_filesize: Option<u64>,
}

impl WalkBuilder {
    /// A builder of one root, whose links are resolved now.
    pub fn new<P: AsRef<Path>>(root: P) -> Result<WalkBuilder, Error> {
        let root = fs::canonicalize(root.as_ref())?;
        Ok(WalkBuilder {
            builder: Builder::new(&told(&root)).map_err(error_of)?,
            root,
            limits: Limits::default(),
            failed: library::OK,
        })
    }

    fn set(&mut self, which: Switch, yes: bool) -> &mut Self {
        self.failed = self.failed.max(self.builder.switch(which, yes));
        self
    }

    /// Sets the six standard filters.
    pub fn standard_filters(&mut self, yes: bool) -> &mut Self {
        self.set(Switch::StandardFilters, yes)
    }

    /// Whether hidden entries are ignored.
    pub fn hidden(&mut self, yes: bool) -> &mut Self {
        self.set(Switch::Hidden, yes)
    }

    /// Whether the rules of the directories above the root count.
    pub fn parents(&mut self, yes: bool) -> &mut Self {
        self.set(Switch::Parents, yes)
    }

    /// Whether `.ignore` files are read.
    pub fn ignore(&mut self, yes: bool) -> &mut Self {
        self.set(Switch::Ignore, yes)
    }

    /// Whether `.gitignore` files are read.
    pub fn git_ignore(&mut self, yes: bool) -> &mut Self {
        self.set(Switch::GitIgnore, yes)
    }

    /// Whether git's global file is read.
    pub fn git_global(&mut self, yes: bool) -> &mut Self {
        self.set(Switch::GitGlobal, yes)
    }

    /// Whether the exclude files of repositories are read.
    pub fn git_exclude(&mut self, yes: bool) -> &mut Self {
        self.set(Switch::GitExclude, yes)
    }

    /// Whether git's rules apply only in a repository.
    pub fn require_git(&mut self, yes: bool) -> &mut Self {
        self.set(Switch::RequireGit, yes)
    }

    /// Whether rules match both ASCII cases of a letter.
    pub fn ignore_case_insensitive(&mut self, yes: bool) -> &mut Self {
        self.set(Switch::CaseInsensitive, yes)
    }

    /// Whether trailing spaces of lines are read by git's own rule.
    pub fn git_trailing_spaces(&mut self, yes: bool) -> &mut Self {
        self.set(Switch::TrailingSpaces, yes)
    }

    /// How many names below the root an entry may be.
    pub fn max_depth(&mut self, depth: Option<usize>) -> &mut Self {
        self.limits.max_depth = depth;
        self.failed = self.failed.max(self.builder.depth(true, depth));
        self
    }

    /// How many names below the root an entry is at least.
    pub fn min_depth(&mut self, depth: Option<usize>) -> &mut Self {
        self.limits.min_depth = depth;
        self.failed = self.failed.max(self.builder.depth(false, depth));
        self
    }

    /// The size above which a file is ignored.
    pub fn max_filesize(&mut self, size: Option<u64>) -> &mut Self {
        self.limits.max_filesize = size;
        self.failed = self.failed.max(self.builder.max_filesize(size));
        self
    }

    /// Adds a name of custom files of rules.
    pub fn add_custom_ignore_filename(&mut self, name: &str) -> &mut Self {
        self.failed = self
            .failed
            .max(self.builder.label(Label::Custom, &told(Path::new(name))));
        self
    }

    /// The guide of the settings, of which the environment is known.
    fn guide(&mut self) -> Result<(Guide, Known), Error> {
        done(self.failed)?;
        let known = Known::of_process();
        let texts = [
            (Label::CurrentDir, known.current_dir.as_ref()),
            (Label::Home, known.home.as_ref()),
            (Label::ConfigHome, known.config_home.as_ref()),
            (Label::GitGlobal, known.git_global.as_ref()),
            (Label::GitSystem, known.git_system.as_ref()),
        ];
        for (label, text) in texts {
            if let Some(text) = text {
                done(self.builder.label(label, &told(text)))?;
            }
        }
        Ok((Guide::new(&mut self.builder).map_err(error_of)?, known))
    }

    /// The matcher of the root.
    pub fn build_matcher(&mut self) -> Result<IncrementalIgnore, Error> {
        let (guide, known) = self.guide()?;
        // (the root is absolute, so a directory that isn't known matters to no path)
        let cwd = known.current_dir.as_deref().unwrap_or(Path::new("/"));
        let mut tree = Tree::new(&told(cwd)).map_err(error_of)?;
        let mut matcher = IncrementalIgnore {
            texts: Matcher::new(&mut self.builder, &mut tree).map_err(error_of)?,
            guide,
            dirs: HashMap::new(),
            root: self.root.clone(),
            limits: self.limits,
        };
        matcher.root_place()?;
        Ok(matcher)
    }

    /// A walk of the root.
    pub fn build(&mut self) -> Result<Walk, Error> {
        let asks_sizes = self.limits.max_filesize.is_some();
        Ok(Walk::by(self.guide()?.0, self.root.clone(), asks_sizes))
    }
}

/// The last name of a path, as the guide is told it.
fn name_of(below: &Path) -> Vec<u8> {
    told(Path::new(below.file_name().unwrap_or_default())).into_owned()
}

/// What is kept of a directory below the root.
enum Kept {
    Entered(Spot),
    Ignored,
}

/// A matcher of single paths below a root on disk. What decides is read as it is needed, and kept
/// until `forget`.
pub struct IncrementalIgnore {
    guide: Guide,
    /// The directories on the way to paths that were asked, by their paths below the root.
    dirs: HashMap<PathBuf, Kept>,
    /// By this paths are made clean; it is asked nothing else.
    texts: Matcher,
    root: PathBuf,
    limits: Limits,
}

/// Where a path stands that is below the root.
enum Stand {
    /// No rule is asked.
    At(Reason),
    /// The directory is ignored that it is in: its parent's place, its own path.
    Inside(Spot, PathBuf),
    /// It is in the directory at a place.
    In(Spot),
}

impl IncrementalIgnore {
    /// The root, without links on its way.
    pub fn root(&self) -> &Path {
        &self.root
    }

    /// What becomes of a path, which is below the root, or in it where it is relative. A path
    /// outside of the root has no match.
    pub fn matched<P: AsRef<Path>>(
        &mut self,
        path: P,
        is_dir: bool,
    ) -> Result<IncrementalMatch, Error> {
        let Some(below) = self.normalize(&self.root.join(path))? else {
            return Ok(IncrementalMatch::outside(is_dir));
        };
        let stand = self.stand(&below, is_dir)?;
        self.answer(&stand, &below, is_dir)
    }

    /// As `matched`, with the reason: the rule, its file and its line, or what else decides.
    pub fn explain<P: AsRef<Path>>(&mut self, path: P, is_dir: bool) -> Result<Explanation, Error> {
        let Some(below) = self.normalize(&self.root.join(path))? else {
            return Ok(Explanation::outside(is_dir));
        };
        let stand = self.stand(&below, is_dir)?;
        let answer = self.answer(&stand, &below, is_dir)?;
        let reason = match stand {
            Stand::At(reason) => reason,
            Stand::Inside(parent, directory) => match self.why(parent, &directory, true)?.reason {
                Reason::Decided(cause) => Reason::Inside { directory, cause },
                reason => reason,
            },
            Stand::In(place) => return self.why(place, &below, is_dir),
        };
        Ok(Explanation { answer, reason })
    }

    /// Where a clean path stands; the directories on the way to it are entered.
    fn stand(&mut self, below: &Path, is_dir: bool) -> Result<Stand, Error> {
        let depth = below.components().count();
        if self.limits.max_depth.is_some_and(|most| most < depth) {
            return Ok(Stand::At(Reason::TooDeep));
        }
        if !is_dir && self.limits.min_depth.is_some_and(|least| depth < least) {
            return Ok(Stand::At(Reason::TooShallow));
        }
        let Some(root) = self.root_place()? else {
            return Ok(Stand::At(Reason::Unruled));
        };
        let (mut place, mut dir) = (root, PathBuf::new());
        let Some(parent) = below.parent() else {
            return Ok(Stand::At(Reason::Unruled));
        };
        if let Some(Kept::Entered(known)) = self.dirs.get(parent) {
            return Ok(Stand::In(*known));
        }
        for name in parent.components() {
            dir.push(name);
            match self.dirs.get(&dir) {
                Some(Kept::Entered(known)) => {
                    place = *known;
                    continue;
                }
                Some(Kept::Ignored) => return Ok(Stand::Inside(place, dir)),
                None => {}
            }
            if self.decided(place, &dir, true)?.is_ignore() {
                self.dirs.insert(dir.clone(), Kept::Ignored);
                return Ok(Stand::Inside(place, dir));
            }
            let name = told(Path::new(name.as_os_str()));
            let found = self.guide.enter(place, &name, &[], &mut read);
            place = found.map_err(error_of)?;
            self.dirs.insert(dir.clone(), Kept::Entered(place));
        }
        Ok(Stand::In(place))
    }

    /// The place of the root, which is begun where it wasn't, or was forgotten; none where it is no
    /// directory.
    fn root_place(&mut self) -> Result<Option<Spot>, Error> {
        if let Some(Kept::Entered(place)) = self.dirs.get(Path::new("")) {
            return Ok(Some(*place));
        }
        if !self.root.is_dir() {
            return Ok(None);
        }
        let place = self.guide.root(&told(&self.root), &mut read);
        let place = place.map_err(error_of)?;
        self.dirs.insert(PathBuf::new(), Kept::Entered(place));
        Ok(Some(place))
    }

    fn answer(
        &mut self,
        stand: &Stand,
        below: &Path,
        is_dir: bool,
    ) -> Result<IncrementalMatch, Error> {
        let depth = below.components().count();
        let is_within = !self.limits.min_depth.is_some_and(|least| depth < least);
        let is_deepest = self.limits.max_depth.is_some_and(|most| most <= depth);
        let (code, descends, is_within) = match stand {
            Stand::At(Reason::TooDeep | Reason::TooShallow) => (library::IGNORE, false, false),
            Stand::At(_) => (library::NONE, is_dir && !is_deepest, is_within),
            Stand::Inside(..) => (library::IGNORE, false, is_within),
            Stand::In(place) => {
                return self.decided(*place, below, is_dir);
            }
        };
        Ok(IncrementalMatch {
            code,
            descends,
            is_within,
        })
    }

    /// What becomes of a path in the directory at a place.
    fn decided(
        &mut self,
        place: Spot,
        below: &Path,
        is_dir: bool,
    ) -> Result<IncrementalMatch, Error> {
        let mut found = Found::default();
        let (name, size) = (name_of(below), self.size(below, is_dir));
        let code = self.guide.decide(place, &name, is_dir, size, &mut found);
        IncrementalMatch::of(code, found)
    }

    /// The size of what is at a path, where it matters and is known. That of a link is of its text.
    fn size(&self, below: &Path, is_dir: bool) -> u64 {
        if is_dir || self.limits.max_filesize.is_none() {
            return library::NO_SIZE;
        }
        match fs::symlink_metadata(self.root.join(below)) {
            Ok(metadata) => metadata.len(),
            Err(_) => library::NO_SIZE,
        }
    }

    /// What becomes of a path in the directory at a place, and why.
    fn why(&mut self, place: Spot, below: &Path, is_dir: bool) -> Result<Explanation, Error> {
        let (mut found, mut why) = (Found::default(), Why::default());
        let (name, size) = (name_of(below), self.size(below, is_dir));
        let mut room = vec![0; 512];
        loop {
            let asked = (&*name, is_dir, size);
            let code = self.guide.why(place, asked, &mut found, &mut why, &mut room);
            let answer = IncrementalMatch::of(code, found)?;
            let whole = why.whole();
            if whole <= room.len() {
                let reason = reason_of(answer, &why, &room[..whole])?;
                return Ok(Explanation { answer, reason });
            }
            room.resize(whole, 0);
        }
    }

    /// Forgets a directory below the root and those below it, so that they are read anew, and counts
    /// them.
    pub fn forget<P: AsRef<Path>>(&mut self, dir: P) -> Result<usize, Error> {
        let Some(below) = self.normalize(&self.root.join(dir))? else {
            return Ok(0);
        };
        let mut gone: Vec<PathBuf> = self
            .dirs
            .keys()
            .filter(|it| it.starts_with(&below))
            .cloned()
            .collect();
        // The deepest ones first.
        gone.sort_by_key(|it| std::cmp::Reverse(it.components().count()));
        for dir in &gone {
            if let Some(Kept::Entered(place)) = self.dirs.remove(dir) {
                done(self.guide.leave(place))?;
            }
        }
        self.root_place()?;
        Ok(gone.len())
    }

    fn normalize(&mut self, path: &Path) -> Result<Option<PathBuf>, Error> {
        let (mut room, mut whole) = (vec![0; 256], 0);
        loop {
            match self.texts.normalize(&told(path), &mut room, &mut whole) {
                library::NONE => return Ok(None),
                code => done(code)?,
            }
            if whole <= room.len() {
                return Ok(Some(of_disk(&room[..whole])));
            }
            room.resize(whole, 0);
        }
    }
}
