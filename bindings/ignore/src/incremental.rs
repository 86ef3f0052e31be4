//! Matchers of single paths.

use crate::decide::{Asked, Begun, Decision, Guide, Place, Plan};
use crate::error::Errors;
use crate::library::Verdict;
use crate::names::told;
use crate::Error;
use std::collections::HashMap;
use std::ffi::OsStr;
use std::fs;
use std::path::{Component, Path, PathBuf};
use std::sync::{Arc, Mutex, PoisonError};
use std::{env, fmt};

/// A matcher of single paths below a root, which answers as a walk from there. It is made by
/// [`WalkBuilder::build_matchers`](crate::WalkBuilder::build_matchers).
///
/// What decides in a directory is read when a path below it is asked about, and kept. A clone keeps
/// nothing, and reads anew; in the original it has all that was read. A matcher of the root `-`
/// says nothing of any path.
pub struct IncrementalIgnore {
    root: PathBuf,
    plan: Arc<Plan>,
    follow_links: bool,
    /// What was read, which one call has at a time.
    kept: Mutex<Option<Kept>>,
}

/// The directories that were entered.
struct Kept {
    guide: Guide,
    dirs: HashMap<PathBuf, Known>,
}

enum Known {
    Entered(Place),
    Ignored,
}

impl Clone for IncrementalIgnore {
    fn clone(&self) -> IncrementalIgnore {
        IncrementalIgnore {
            root: self.root.clone(),
            plan: self.plan.clone(),
            follow_links: self.follow_links,
            kept: Mutex::new(None),
        }
    }
}

impl fmt::Debug for IncrementalIgnore {
    fn fmt(&self, f: &mut fmt::Formatter<'_>) -> fmt::Result {
        f.debug_struct("IncrementalIgnore")
            .field("root", &self.root)
            .finish_non_exhaustive()
    }
}

impl IncrementalIgnore {
    pub(crate) fn new(root: &Path, plan: &Arc<Plan>, follow_links: bool) -> IncrementalIgnore {
        IncrementalIgnore {
            root: root.to_path_buf(),
            plan: plan.clone(),
            follow_links,
            kept: Mutex::new(None),
        }
    }

    /// The root, as it was given.
    pub fn root(&self) -> &Path {
        &self.root
    }

    /// The path relative to the root, by the texts of both alone, without `.` and `..`; a relative
    /// path is from the working directory. `None` where the path isn't at the root or below it, or
    /// the working directory isn't known.
    pub fn normalize<P: AsRef<Path>>(&self, path: P) -> Option<PathBuf> {
        if self.is_stdin() {
            return None;
        }
        let (path, root) = (clean(path.as_ref())?, clean(&self.root)?);
        path.strip_prefix(root).ok().map(Path::to_path_buf)
    }

    /// What becomes of a path, which is relative to the root and has no `..`; an absolute one has
    /// no match. Files of rules that are new on the way are read.
    pub fn matched<P: AsRef<Path>>(&mut self, path: P, is_dir: bool) -> IncrementalMatch {
        self.matched_with_errors(path, is_dir).0
    }

    /// The same, with what is wrong with the files of rules that were read, or with the size of the
    /// file. The other lines count.
    pub fn matched_with_errors<P: AsRef<Path>>(
        &mut self,
        path: P,
        is_dir: bool,
    ) -> (IncrementalMatch, Option<Error>) {
        let mut errors = Errors::default();
        let decision = self.decided(path.as_ref(), is_dir, &mut errors);
        (IncrementalMatch(decision), errors.into_error())
    }

    fn is_stdin(&self) -> bool {
        self.root == Path::new("-")
    }

    fn decided(&mut self, path: &Path, is_dir: bool, errors: &mut Errors) -> Decision {
        let Some(names) = names_of(path).filter(|_| !self.is_stdin()) else {
            return undecided(is_dir);
        };
        let limited = |verdict| self.plan.limited(names.len(), is_dir, verdict);
        let whole = limited(Verdict::None);
        let kept = self.kept.get_mut().unwrap_or_else(PoisonError::into_inner);
        if kept.is_none() && self.root.is_dir() {
            *kept = Some(Kept::of(&self.plan, &self.root, errors));
        }
        let (Some(kept), Some((name, way)), Verdict::None) =
            (kept, names.split_last(), whole.verdict)
        else {
            return whole;
        };
        let Some(dir) = kept.way(&self.root, way, errors) else {
            return limited(Verdict::Ignore);
        };
        let shown = self.root.join(&dir);
        let text = told(Path::new(name));
        let asked = |size| Asked {
            name,
            told: &text,
            dir: &shown,
            is_dir,
            size,
        };
        let decision = kept.decide(&dir, &asked(None));
        if is_dir || decision.verdict == Verdict::Ignore || !self.plan.asks_sizes() {
            return decision;
        }
        let path = shown.join(name);
        match size(&path, self.follow_links) {
            Ok(size) => kept.decide(&dir, &asked(Some(size))),
            Err(error) => {
                errors.push(Error::Io(error).with_path(path));
                decision
            }
        }
    }
}

fn size(path: &Path, follows: bool) -> std::io::Result<u64> {
    let found = match follows {
        true => fs::metadata(path),
        false => fs::symlink_metadata(path),
    };
    found.map(|it| it.len())
}

fn undecided(is_dir: bool) -> Decision {
    Decision {
        verdict: Verdict::None,
        should_descend: is_dir,
        is_within_depth: true,
    }
}

impl Kept {
    fn of(plan: &Arc<Plan>, root: &Path, errors: &mut Errors) -> Kept {
        let mut guide = Guide::new(plan, false);
        let Begun { place, above, own } = guide.root(root);
        errors.add(above);
        errors.add(own);
        let dirs = HashMap::from([(PathBuf::new(), Known::Entered(place))]);
        Kept { guide, dirs }
    }

    /// The directory of these names below the root, which is entered with all on the way to it;
    /// `None` where one of them is ignored.
    fn way(&mut self, root: &Path, names: &[&OsStr], errors: &mut Errors) -> Option<PathBuf> {
        let whole: PathBuf = names.iter().collect();
        match self.dirs.get(&whole) {
            Some(Known::Entered(_)) => return Some(whole),
            Some(Known::Ignored) => return None,
            None => {}
        }
        let mut dir = PathBuf::new();
        for name in names {
            let parent = dir.clone();
            dir.push(name);
            match self.dirs.get(&dir) {
                Some(Known::Entered(_)) => continue,
                Some(Known::Ignored) => return None,
                None => {}
            }
            let (text, shown) = (told(Path::new(name)), root.join(&parent));
            let asked = Asked {
                name,
                told: &text,
                dir: &shown,
                is_dir: true,
                size: None,
            };
            let above = match self.dirs.get(&parent) {
                Some(Known::Entered(above)) => above.clone(),
                _ => return None,
            };
            if self.guide.decide(&above, &asked).verdict == Verdict::Ignore {
                self.dirs.insert(dir, Known::Ignored);
                return None;
            }
            let (place, error) = self.guide.enter(&above, &text, &[]);
            errors.add(error);
            self.dirs.insert(dir.clone(), Known::Entered(place));
        }
        Some(dir)
    }

    fn decide(&mut self, dir: &Path, asked: &Asked<'_>) -> Decision {
        let (guide, dirs) = (&mut self.guide, &self.dirs);
        let Some(Known::Entered(place)) = dirs.get(dir) else {
            return undecided(asked.is_dir);
        };
        guide.decide(place, asked)
    }
}

/// The names of a relative path; `None` where it has a `..`, or isn't relative.
fn names_of(path: &Path) -> Option<Vec<&OsStr>> {
    let mut names = Vec::new();
    for part in path.components() {
        match part {
            Component::Normal(name) => names.push(name),
            Component::CurDir => {}
            _ => return None,
        }
    }
    Some(names)
}

/// The path from the top, without `.` and `..`.
fn clean(path: &Path) -> Option<PathBuf> {
    if path.as_os_str().is_empty() {
        return None;
    }
    let whole = match path.is_absolute() {
        true => path.to_path_buf(),
        false => env::current_dir().ok()?.join(path),
    };
    let mut clean = PathBuf::new();
    for part in whole.components() {
        match part {
            Component::CurDir => {}
            Component::ParentDir => {
                clean.pop();
            }
            part => clean.push(part),
        }
    }
    Some(clean)
}

/// What becomes of a path: what the rules say, and whether a walk would enter it.
#[derive(Clone, Debug)]
pub struct IncrementalMatch(Decision);

impl IncrementalMatch {
    /// Whether nothing decides.
    pub fn is_none(&self) -> bool {
        self.0.verdict == Verdict::None
    }

    /// Whether the path is ignored.
    pub fn is_ignore(&self) -> bool {
        self.0.verdict == Verdict::Ignore
    }

    /// Whether the path is whitelisted.
    pub fn is_whitelist(&self) -> bool {
        self.0.verdict == Verdict::Whitelist
    }

    /// Whether it is a directory that a walk would enter.
    pub fn should_descend(&self) -> bool {
        self.0.should_descend
    }

    /// Whether the path is as deep as the limits on depth ask.
    pub fn is_within_depth(&self) -> bool {
        self.0.is_within_depth
    }

    /// The same, with ignored and whitelisted exchanged.
    pub fn invert(self) -> IncrementalMatch {
        let verdict = match self.0.verdict {
            Verdict::Ignore => Verdict::Whitelist,
            Verdict::Whitelist => Verdict::Ignore,
            Verdict::None => Verdict::None,
        };
        IncrementalMatch(Decision { verdict, ..self.0 })
    }
}
