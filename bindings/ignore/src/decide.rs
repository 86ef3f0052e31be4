//! What the library decides, for a host that walks by itself: a directory is entered, its entries
//! are decided on, and it is left.
//!
//! It is the one place that knows how the library is asked: by a guide, which says of which paths it
//! has to know what, and this reads them. Which files decide, and where git's files lead, is the
//! library's to know.

use crate::error::Errors;
use crate::excludes::Known;
use crate::library::{self, Builder, Found, Given, Label, Problem, Spot, Switch, Tree};
use crate::library::{Verdict, Wanted, What, MOST_PROBLEMS};
use crate::names::{of_disk, told};
use crate::overrides::Override;
use crate::reader::{error_of, nothing, read};
use crate::types::{choose, Types};
use crate::{Error, Match};
use std::collections::HashSet;
use std::ffi::{OsStr, OsString};
use std::path::{Path, PathBuf};
use std::sync::{Arc, Mutex, OnceLock, PoisonError};

/// A file of rules that was given explicitly: its lines, and the directory they are relative to.
#[derive(Clone, Debug)]
pub(crate) struct Explicit {
    pub root: PathBuf,
    pub text: Arc<[u8]>,
}

/// Which rules count.
#[derive(Clone, Debug)]
pub(crate) struct Settings {
    pub hidden: bool,
    pub parents: bool,
    pub ignore: bool,
    pub git_ignore: bool,
    pub git_global: bool,
    pub git_exclude: bool,
    pub require_git: bool,
    pub case_insensitive: bool,
    pub custom: Vec<OsString>,
    pub explicit: Vec<Explicit>,
    pub overrides: Override,
    pub types: Types,
    /// The directory to which the global file is relative, where that isn't the working directory.
    pub rules_dir: Option<PathBuf>,
    pub min_depth: Option<usize>,
    pub max_depth: Option<usize>,
    pub max_filesize: Option<u64>,
}

impl Settings {
    /// Those at first.
    pub(crate) fn at_first() -> Settings {
        Settings {
            hidden: true,
            parents: true,
            ignore: true,
            git_ignore: true,
            git_global: true,
            git_exclude: true,
            require_git: true,
            case_insensitive: false,
            custom: Vec::new(),
            explicit: Vec::new(),
            overrides: Override::empty(),
            types: Types::empty(),
            rules_dir: None,
            min_depth: None,
            max_depth: None,
            max_filesize: None,
        }
    }
}

/// What walks and matchers go by, for all their threads.
#[derive(Debug)]
pub(crate) struct Plan {
    settings: Settings,
    known: Known,
    /// What was told for the first root: the user's own files too.
    first: OnceLock<Arc<Answers>>,
    /// The files of rules above roots whose problems were told.
    told_above: Mutex<HashSet<Vec<u8>>>,
}

impl Plan {
    pub(crate) fn new(settings: Settings) -> Arc<Plan> {
        Arc::new(Plan {
            settings,
            known: Known::of_process(),
            first: OnceLock::new(),
            told_above: Mutex::new(HashSet::new()),
        })
    }

    /// Whether the sizes of files matter.
    pub(crate) fn asks_sizes(&self) -> bool {
        self.settings.max_filesize.is_some()
    }

    /// What becomes of a path with this verdict so many names below a root.
    pub(crate) fn limited(&self, depth: usize, is_dir: bool, verdict: Verdict) -> Decision {
        let is_above = self.settings.min_depth.is_some_and(|least| depth < least);
        let most = self.settings.max_depth;
        if (!is_dir && is_above) || most.is_some_and(|most| most < depth) {
            return Decision {
                verdict: Verdict::Ignore,
                should_descend: false,
                is_within_depth: false,
            };
        }
        let is_deepest = most.is_some_and(|most| most <= depth);
        Decision {
            verdict,
            should_descend: is_dir && verdict != Verdict::Ignore && !is_deepest,
            is_within_depth: !is_above,
        }
    }

    /// The builder of guides.
    fn builder(&self) -> Builder {
        let settings = &self.settings;
        let mut builder = Builder::new(b"");
        let switches = [
            (Switch::Hidden, settings.hidden),
            (Switch::Parents, settings.parents),
            (Switch::Ignore, settings.ignore),
            (Switch::GitIgnore, settings.git_ignore),
            (Switch::GitGlobal, settings.git_global),
            (Switch::GitExclude, settings.git_exclude),
            (Switch::RequireGit, settings.require_git),
            (Switch::CaseInsensitive, settings.case_insensitive),
        ];
        for (which, on) in switches {
            builder.switch(which, on);
        }
        let known = &self.known;
        let labels = [
            (Label::CurrentDir, known.current_dir.as_ref()),
            (Label::Home, known.home.as_ref()),
            (Label::ConfigHome, known.config_home.as_ref()),
            (Label::GitGlobal, known.git_global.as_ref()),
            (Label::GitSystem, known.git_system.as_ref()),
        ];
        for (label, text) in labels {
            if let Some(text) = text {
                builder.label(label, &told(text));
            }
        }
        for name in &settings.custom {
            builder.label(Label::Custom, &told(Path::new(name)));
        }
        builder.depth(false, settings.min_depth);
        builder.depth(true, settings.max_depth);
        builder.max_filesize(settings.max_filesize);
        self.add_explicit(&mut builder);
        if let Some(both_cases) = self.one_case() {
            let globs = settings.overrides.globs().map(|(_, glob)| glob);
            builder.overrides(&told(settings.overrides.path()), both_cases, globs);
        }
        let chosen = choose(&mut builder, settings.types.choices());
        chosen.expect("types that were built before");
        builder
    }

    fn add_explicit(&self, builder: &mut Builder) {
        for explicit in &self.settings.explicit {
            let mut tree = Tree::new(b"/");
            tree.add_file(b"/rules", &explicit.text);
            builder.label(Label::RulesDir, &told(&explicit.root));
            builder.add_ignore(&mut tree, b"/rules");
        }
        let rules_dir = self.settings.rules_dir.as_ref();
        if let Some(dir) = rules_dir.or(self.known.current_dir.as_ref()) {
            builder.label(Label::RulesDir, &told(dir));
        }
    }

    /// The case of the overrides, where the library can be told them: it has one case for all, and
    /// no unclosed `[`.
    fn one_case(&self) -> Option<bool> {
        let mut globs = self.settings.overrides.globs().map(|(options, _)| options);
        let first = globs.next()?;
        let is_same = |options: &&_| **options == *first;
        let fits = !first.allow_unclosed_class && globs.all(|options| is_same(&options));
        fits.then_some(first.case_insensitive)
    }
}

/// What a guide wanted to know of a directory, and was told: by this the guides of other threads
/// enter it, and read nothing.
#[derive(Debug, Default)]
pub(crate) struct Answers {
    told: Vec<(Wanted, Vec<u8>, Given)>,
    /// The last names of the paths, each ended by a zero. Of what they lack nothing was asked.
    names: Vec<u8>,
}

impl Answers {
    fn add(&mut self, wanted: Wanted, path: &[u8], given: &Given) {
        let name = path.rsplit(|&byte| byte == b'/').next().unwrap_or(path);
        self.names.extend_from_slice(name);
        self.names.push(0);
        self.told.push((wanted, path.to_vec(), given.clone()));
    }

    fn find(&self, wanted: Wanted, path: &[u8]) -> Option<Given> {
        let mut all = self.told.iter();
        let found = all.find(|it| it.0 == wanted && it.1 == path)?;
        Some(found.2.clone())
    }

    fn names(&self) -> &[u8] {
        match self.names.as_slice() {
            [] => b".\0",
            names => names,
        }
    }
}

/// A directory that was entered.
#[derive(Clone, Debug)]
pub(crate) struct Place {
    spot: Spot,
    answers: Option<Arc<Answers>>,
}

impl Place {
    /// What another thread needs to enter the directory, if anything was told.
    pub(crate) fn answers(&self) -> Option<Arc<Answers>> {
        self.answers.clone()
    }
}

/// A root that was begun.
pub(crate) struct Begun {
    pub place: Place,
    /// What is wrong above it, that wasn't told before.
    pub above: Option<Error>,
    /// What is wrong with its own files of rules.
    pub own: Option<Error>,
}

/// An entry that is decided on.
pub(crate) struct Asked<'a> {
    /// Its name, and the same as the library is told it.
    pub name: &'a OsStr,
    pub told: &'a [u8],
    /// The path of its directory as the walk shows it.
    pub dir: &'a Path,
    pub is_dir: bool,
    /// Its size, where that is known.
    pub size: Option<u64>,
}

/// What becomes of an entry.
#[derive(Clone, Copy, Debug)]
pub(crate) struct Decision {
    pub verdict: Verdict,
    pub should_descend: bool,
    pub is_within_depth: bool,
}

/// What decides, for one thread at a time.
#[derive(Debug)]
pub(crate) struct Guide {
    plan: Arc<Plan>,
    guide: library::Guide,
    /// Whether what is told is kept for other threads.
    shares: bool,
    overrides_first: bool,
}

impl Guide {
    /// A guide. What it is told is kept for other threads, or it isn't.
    pub(crate) fn new(plan: &Arc<Plan>, shares: bool) -> Guide {
        let overrides = &plan.settings.overrides;
        Guide {
            guide: library::Guide::new(&mut plan.builder()),
            shares,
            overrides_first: !overrides.is_empty() && plan.one_case().is_none(),
            plan: plan.clone(),
        }
    }

    /// Begins a root, which is a directory.
    pub(crate) fn root(&mut self, root: &Path) -> Begun {
        let (text, mut answers) = (told(root), Answers::default());
        let first = self.plan.first.get().cloned();
        let spot = self.guide.root(&text, &mut |wanted, path| {
            let known = first.as_ref().and_then(|it| it.find(wanted, path));
            let given = known.unwrap_or_else(|| read(wanted, path));
            answers.add(wanted, path, &given);
            given
        });
        let answers = Arc::new(answers);
        let all = self.guide.problems();
        let own = match all.is_empty() {
            true => Vec::new(),
            false => self.own_problems(&text, &answers),
        };
        let mut above = without(all, &own);
        self.plan.first.get_or_init(|| answers.clone());
        let told = self.plan.told_above.lock();
        let mut told = told.unwrap_or_else(PoisonError::into_inner);
        above.retain(|it| !it.path.as_ref().is_some_and(|path| told.contains(path)));
        told.extend(above.iter().filter_map(|it| it.path.clone()));
        drop(told);
        Begun {
            place: Place {
                spot,
                answers: Some(answers),
            },
            above: joined(above),
            own: joined(own),
        }
    }

    /// The problems of a root's own files: those that it has where nothing is known of what is above
    /// it.
    fn own_problems(&mut self, root: &[u8], answers: &Answers) -> Vec<Problem> {
        let spot = self.guide.root(root, &mut |wanted, path| match wanted {
            Wanted::Canonical => nothing(),
            _ => answers
                .find(wanted, path)
                .unwrap_or_else(|| read(wanted, path)),
        });
        let own = self.guide.problems();
        self.guide.leave(spot);
        own
    }

    /// Begins a root by what another thread was told.
    pub(crate) fn adopt_root(&mut self, root: &Path, answers: Arc<Answers>) -> Place {
        let first = self.plan.first.get().cloned().unwrap_or_default();
        let spot = self.guide.root(&told(root), &mut |wanted, path| {
            let known = answers
                .find(wanted, path)
                .or_else(|| first.find(wanted, path));
            known.unwrap_or_else(|| read(wanted, path))
        });
        let answers = Some(answers);
        Place { spot, answers }
    }

    /// Enters the directory of a name in that of a place, of which all names may be listed, each
    /// ended by a zero; and what is wrong with its files of rules.
    pub(crate) fn enter(
        &mut self,
        parent: &Place,
        name: &[u8],
        names: &[u8],
    ) -> (Place, Option<Error>) {
        let (shares, mut answers) = (self.shares, Answers::default());
        let spot = self
            .guide
            .enter(parent.spot, name, names, &mut |wanted, path| {
                let given = read(wanted, path);
                if shares {
                    answers.add(wanted, path, &given);
                }
                given
            });
        let answers = (!answers.told.is_empty()).then(|| Arc::new(answers));
        let error = joined(self.guide.problems());
        (Place { spot, answers }, error)
    }

    /// Enters a directory by what another thread was told.
    pub(crate) fn adopt(&mut self, parent: &Place, name: &[u8], answers: Arc<Answers>) -> Place {
        let names = answers.names();
        let spot = self
            .guide
            .enter(parent.spot, name, names, &mut |wanted, path| {
                answers
                    .find(wanted, path)
                    .unwrap_or_else(|| read(wanted, path))
            });
        let answers = Some(answers);
        Place { spot, answers }
    }

    /// What becomes of an entry of a directory.
    pub(crate) fn decide(&mut self, place: &Place, asked: &Asked<'_>) -> Decision {
        if self.overrides_first {
            if let Some(decision) = self.overridden(asked) {
                return decision;
            }
        }
        let Asked {
            told, is_dir, size, ..
        } = *asked;
        let (verdict, found) = self.guide.decide(place.spot, told, is_dir, size);
        let Found {
            should_descend,
            is_within_depth,
        } = found;
        Decision {
            verdict,
            should_descend,
            is_within_depth,
        }
    }

    /// What the overrides say, where the library isn't told them.
    fn overridden(&self, asked: &Asked<'_>) -> Option<Decision> {
        let settings = &self.plan.settings;
        let path = asked.dir.join(asked.name);
        let mut verdict = match settings.overrides.matched(path, asked.is_dir) {
            Match::None => return None,
            Match::Ignore(_) => Verdict::Ignore,
            Match::Whitelist(_) => Verdict::Whitelist,
        };
        let limits = (settings.max_filesize, asked.size);
        if let ((Some(most), Some(size)), false) = (limits, asked.is_dir) {
            if size > most {
                verdict = Verdict::Ignore;
            }
        }
        Some(Decision {
            verdict,
            should_descend: asked.is_dir && verdict != Verdict::Ignore,
            is_within_depth: true,
        })
    }

    /// Leaves a directory, after those below it.
    pub(crate) fn leave(&mut self, place: &Place) {
        self.guide.leave(place.spot)
    }
}

/// The problems without those of a root's own files, which come last; where there are too many to
/// tell them all, without all of these files.
fn without(mut all: Vec<Problem>, own: &[Problem]) -> Vec<Problem> {
    match all.len() > MOST_PROBLEMS {
        false => all.truncate(all.len().saturating_sub(own.len())),
        true => all.retain(|it| own.iter().all(|other| other.path != it.path)),
    }
    all
}

/// Problems as one error.
fn joined(all: Vec<Problem>) -> Option<Error> {
    let mut errors = Errors::default();
    for Problem {
        what,
        path,
        line,
        text,
    } in all
    {
        let error = match what {
            What::Fault(fault) => Error::Io(error_of(fault)),
            What::Glob(glob) => Error::Glob { glob, err: text },
            What::Other => Error::of_text(&text),
        };
        let path = path.as_deref().map(of_disk).unwrap_or_default();
        errors.push(match line {
            0 => error.with_path(path),
            line => error.in_line(&path, line),
        });
    }
    errors.into_error()
}

#[cfg(test)]
mod beside;
#[cfg(test)]
mod shared;
