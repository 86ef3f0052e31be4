//! Rules of gitignore lines, and what they say of a path.
//!
//! Rules are those of gitignore(5), relative to a directory. What they say of a path is the proved
//! library's answer. It reads characters where the original reads bytes: `?` matches `é`. A name
//! that isn't UTF-8 is as the README says.

pub use crate::excludes::gitconfig_excludes_path;

use crate::error::{Error, Errors};
use crate::library::{Counts, Reason, RuleOptions, Rules, Verdict};
use crate::names::told;
use crate::paths::without_dot_slash;
use crate::pool::Pool;
use crate::Match;
use std::fs::File;
use std::io::Read;
use std::path::{Path, PathBuf};
use std::str::from_utf8;
use std::sync::{Arc, Mutex, OnceLock, PoisonError};

/// A rule: a line of a gitignore file.
#[derive(Clone, Debug)]
pub struct Glob {
    from: Option<PathBuf>,
    original: String,
    actual: String,
    is_only_dir: bool,
}

impl Glob {
    /// The file that the rule is from, if one was given.
    pub fn from(&self) -> Option<&Path> {
        self.from.as_deref()
    }

    /// Its line, without white space at the end.
    pub fn original(&self) -> &str {
        &self.original
    }

    /// The glob that the line stands for.
    pub fn actual(&self) -> &str {
        &self.actual
    }

    /// Whether it whitelists what it matches: its line begins with `!`.
    pub fn is_whitelist(&self) -> bool {
        self.original.starts_with('!')
    }

    /// Whether it matches directories only.
    pub fn is_only_dir(&self) -> bool {
        self.is_only_dir
    }
}

/// What was added to rules.
#[derive(Clone, Debug)]
enum Added {
    Line {
        options: RuleOptions,
        from: Option<PathBuf>,
        line: String,
    },
    File {
        options: RuleOptions,
        path: PathBuf,
        text: Arc<[u8]>,
    },
}

impl Added {
    fn options(&self) -> &RuleOptions {
        match self {
            Added::Line { options, .. } | Added::File { options, .. } => options,
        }
    }

    /// How many rules it may be.
    fn lines(&self) -> usize {
        match self {
            Added::Line { .. } => 1,
            Added::File { text, .. } => text.iter().filter(|&&byte| byte == b'\n').count() + 1,
        }
    }
}

/// Adds to rules what was added before. Each has its place in the list as its label, so that the
/// rule that decides is known by its number.
fn add_to(rules: &mut Rules, at: usize, added: &Added) -> bool {
    let label = at.to_string();
    rules.set_options(added.options());
    match added {
        Added::Line { line, .. } => rules.add_line(label.as_bytes(), line.as_bytes()),
        Added::File { text, .. } => rules.add_file(label.as_bytes(), text),
    }
}

fn rules_of(root: &Path, all: &[Added]) -> Rules {
    let mut rules = Rules::new(&told(root), &AT_FIRST);
    for (at, added) in all.iter().enumerate() {
        add_to(&mut rules, at, added);
    }
    rules
}

/// How lines are read at first.
const AT_FIRST: RuleOptions = RuleOptions {
    case_insensitive: false,
    allow_unclosed_class: true,
    git_trailing_spaces: false,
};

/// The rules of some gitignore files of one directory.
///
/// A clone is the same rules. Threads may ask at once: each call has a matcher of the library for
/// itself, out of a pool that all clones share.
#[derive(Clone, Debug)]
pub struct Gitignore(Arc<Whole>);

#[derive(Debug)]
struct Whole {
    root: PathBuf,
    added: Vec<Added>,
    counts: Counts,
    /// Where the rules of each thing that was added begin in `globs`.
    offsets: Vec<usize>,
    globs: Vec<OnceLock<Glob>>,
    ready: Pool<Rules>,
}

impl Gitignore {
    /// The rules of a file, relative to its directory, and what is wrong with it. Where it can't be
    /// read there are no rules, which is no error here.
    pub fn new<P: AsRef<Path>>(gitignore_path: P) -> (Gitignore, Option<Error>) {
        let path = gitignore_path.as_ref();
        let mut builder = GitignoreBuilder::new(path.parent().unwrap_or(Path::new("/")));
        let mut errors = Errors::default();
        errors.add_but_io(builder.add(path));
        (builder.built(), errors.into_error())
    }

    /// The rules of git's global file, relative to the working directory, and what is wrong with
    /// it.
    ///
    /// Which file that is, [`gitconfig_excludes_path`] says.
    pub fn global() -> (Gitignore, Option<Error>) {
        match std::env::current_dir() {
            Ok(cwd) => GitignoreBuilder::new(cwd).build_global(),
            Err(error) => (Gitignore::empty(), Some(error.into())),
        }
    }

    /// No rules; their path is empty.
    pub fn empty() -> Gitignore {
        Gitignore(Arc::new(Whole {
            root: PathBuf::new(),
            added: Vec::new(),
            counts: Counts::default(),
            offsets: Vec::new(),
            globs: Vec::new(),
            ready: Pool::of(Vec::new()),
        }))
    }

    /// The directory to which the rules are relative.
    pub fn path(&self) -> &Path {
        &self.0.root
    }

    /// Whether there are no rules.
    pub fn is_empty(&self) -> bool {
        self.len() == 0
    }

    /// How many rules there are.
    pub fn len(&self) -> usize {
        (self.0.counts.ignores + self.0.counts.whitelists) as usize
    }

    /// How many of them ignore.
    pub fn num_ignores(&self) -> u64 {
        self.0.counts.ignores
    }

    /// How many of them whitelist.
    pub fn num_whitelists(&self) -> u64 {
        self.0.counts.whitelists
    }

    /// What the rules say of a path, a directory or not, with the rule that decided.
    ///
    /// The path is written as from where the directory of the rules is, or from that directory:
    /// what it begins with of that is stripped. It is stripped only where that ends at a name,
    /// which the original doesn't mind.
    pub fn matched<P: AsRef<Path>>(&self, path: P, is_dir: bool) -> Match<&Glob> {
        self.decided(path.as_ref(), is_dir, false)
    }

    /// The same of the path, or else of the nearest of its parents that has a match.
    ///
    /// # Panics
    ///
    /// Where the path isn't below the directory of the rules.
    pub fn matched_path_or_any_parents<P: AsRef<Path>>(
        &self,
        path: P,
        is_dir: bool,
    ) -> Match<&Glob> {
        self.decided(path.as_ref(), is_dir, true)
    }

    fn decided(&self, path: &Path, is_dir: bool, with_parents: bool) -> Match<&Glob> {
        if self.is_empty() {
            return Match::None;
        }
        let whole = &*self.0;
        let text = told(path);
        let (verdict, glob) = whole.ready.with(
            || whole.rules(),
            |rules| {
                let (mut reason, mut room) = (Reason::default(), [0; 24]);
                let verdict = rules.decided(&text, is_dir, with_parents, &mut reason, &mut room);
                let verdict = verdict.expect("the path is below the directory of the rules");
                let glob = (verdict != Verdict::None).then(|| {
                    let (at, added) = whole.place(&reason, &room);
                    whole.globs[at].get_or_init(|| {
                        let mut room = vec![0; reason.source + reason.pattern + reason.glob];
                        rules.decided(&text, is_dir, with_parents, &mut reason, &mut room);
                        glob_of(&reason, &room, added)
                    })
                });
                (verdict, glob)
            },
        );
        match (verdict, glob) {
            (Verdict::Ignore, Some(glob)) => Match::Ignore(glob),
            (Verdict::Whitelist, Some(glob)) => Match::Whitelist(glob),
            _ => Match::None,
        }
    }
}

impl Whole {
    fn rules(&self) -> Rules {
        let mut rules = rules_of(&self.root, &self.added);
        rules.build();
        rules
    }

    /// The number of the rule that decided, and what it was added by.
    fn place(&self, reason: &Reason, room: &[u8]) -> (usize, &Added) {
        let label = from_utf8(&room[..reason.source]).ok();
        let at: usize = label
            .and_then(|it| it.parse().ok())
            .expect("a label of ours");
        let line = (reason.line as usize).saturating_sub(1);
        (self.offsets[at] + line, &self.added[at])
    }
}

fn glob_of(reason: &Reason, room: &[u8], added: &Added) -> Glob {
    let texts = &room[reason.source..];
    let (original, rest) = texts.split_at(reason.pattern);
    let text_of = |bytes: &[u8]| String::from_utf8_lossy(bytes).into_owned();
    Glob {
        from: match added {
            Added::Line { from, .. } => from.clone(),
            Added::File { path, .. } => Some(path.clone()),
        },
        original: text_of(original),
        actual: text_of(&rest[..reason.glob]),
        is_only_dir: reason.is_only_dir,
    }
}

/// The text of a file: the whole lines before what can't be read of it, and what is wrong there.
pub(crate) fn file_text(path: &Path) -> Result<(Vec<u8>, Option<Error>), Error> {
    let mut file = File::open(path).map_err(|error| Error::Io(error).with_path(path))?;
    let mut text = Vec::new();
    let Err(error) = file.read_to_end(&mut text) else {
        return Ok((text, None));
    };
    let last = text.iter().rposition(|&byte| byte == b'\n');
    text.truncate(last.map_or(0, |at| at + 1));
    let lines = text.iter().filter(|&&byte| byte == b'\n').count() as u64;
    Ok((text, Some(Error::Io(error).in_line(path, lines + 1))))
}

/// Builds rules of lines and files.
#[derive(Debug)]
pub struct GitignoreBuilder {
    root: PathBuf,
    options: RuleOptions,
    added: Vec<Added>,
    /// The library's rules of what was added, but after `build`.
    live: Mutex<Option<Rules>>,
}

impl Clone for GitignoreBuilder {
    fn clone(&self) -> GitignoreBuilder {
        GitignoreBuilder {
            root: self.root.clone(),
            options: self.options,
            added: self.added.clone(),
            live: Mutex::new(None),
        }
    }
}

impl GitignoreBuilder {
    /// A builder of rules relative to a directory, without rules.
    pub fn new<P: AsRef<Path>>(root: P) -> GitignoreBuilder {
        GitignoreBuilder {
            root: without_dot_slash(root.as_ref()).to_path_buf(),
            options: AT_FIRST,
            added: Vec::new(),
            live: Mutex::new(None),
        }
    }

    /// The rules that were added so far.
    ///
    /// It is never an error: the library has no limit on the size of its rules, which the original
    /// has.
    pub fn build(&self) -> Result<Gitignore, Error> {
        Ok(self.built())
    }

    fn built(&self) -> Gitignore {
        let live = self
            .live
            .lock()
            .unwrap_or_else(PoisonError::into_inner)
            .take();
        let mut rules = live.unwrap_or_else(|| rules_of(&self.root, &self.added));
        let counts = rules.build();
        if counts.ignores + counts.whitelists == 0 {
            return Gitignore::empty();
        }
        let mut globs = Vec::new();
        let offsets = self.added.iter().map(|added| {
            let offset = globs.len();
            globs.resize_with(offset + added.lines(), OnceLock::new);
            offset
        });
        let offsets = offsets.collect();
        Gitignore(Arc::new(Whole {
            root: self.root.clone(),
            added: self.added.clone(),
            counts,
            offsets,
            globs,
            ready: Pool::of(vec![rules]),
        }))
    }

    /// The rules of git's global file, which are added to those of the builder, and what is wrong
    /// with that file. Where there is none there are no rules at all.
    ///
    /// They are relative to the builder's directory.
    pub fn build_global(mut self) -> (Gitignore, Option<Error>) {
        let path = gitconfig_excludes_path().filter(|path| path.is_file());
        let Some(path) = path else {
            return (Gitignore::empty(), None);
        };
        let mut errors = Errors::default();
        errors.add_but_io(self.add(path));
        (self.built(), errors.into_error())
    }

    /// Adds the lines of a file. What is wrong with it is returned, and the other lines are added.
    pub fn add<P: AsRef<Path>>(&mut self, path: P) -> Option<Error> {
        let path = path.as_ref();
        let (text, stopped) = match file_text(path) {
            Ok(found) => found,
            Err(error) => return Some(error),
        };
        let mut errors = Errors::default();
        self.add_text(path, &text, &mut errors);
        errors.add(stopped);
        errors.into_error()
    }

    /// Adds the lines of a text that stands for the file at a path.
    pub(crate) fn add_text(&mut self, path: &Path, text: &[u8], errors: &mut Errors) {
        let added = Added::File {
            options: self.options,
            path: path.to_path_buf(),
            text: text.into(),
        };
        if let Err(problem) = self.put(added) {
            Error::of_file(&problem, &(self.added.len() - 1).to_string(), path, errors);
        }
    }

    /// Adds a line, whose source may be given. A comment or a blank line adds nothing. After an
    /// error nothing is added.
    pub fn add_line(
        &mut self,
        from: Option<PathBuf>,
        line: &str,
    ) -> Result<&mut GitignoreBuilder, Error> {
        let added = Added::Line {
            options: self.options,
            from,
            line: line.to_string(),
        };
        match self.put(added) {
            Ok(()) => Ok(self),
            Err(problem) => {
                self.added.pop();
                Err(Error::of_text(&problem))
            }
        }
    }

    /// Adds to the library's rules, and to the list; the problem, if something is wrong.
    fn put(&mut self, added: Added) -> Result<(), String> {
        let live = self.live.get_mut().unwrap_or_else(PoisonError::into_inner);
        let rules = live.get_or_insert_with(|| rules_of(&self.root, &self.added));
        let taken = add_to(rules, self.added.len(), &added);
        self.added.push(added);
        match taken {
            true => Ok(()),
            false => Err(rules.problem()),
        }
    }

    /// Whether both ASCII cases of a letter match, in lines that are added from now on. At first
    /// they don't. It is never an error.
    pub fn case_insensitive(&mut self, yes: bool) -> Result<&mut GitignoreBuilder, Error> {
        self.options.case_insensitive = yes;
        Ok(self)
    }

    /// Whether a `[` that nothing closes stands for itself, in lines that are added from now on;
    /// else it is an error. At first it does.
    pub fn allow_unclosed_class(&mut self, yes: bool) -> &mut GitignoreBuilder {
        self.options.allow_unclosed_class = yes;
        self
    }
}

impl Gitignore {
    /// The lines that were added one by one, with how they were read.
    pub(crate) fn lines(&self) -> impl Iterator<Item = (&RuleOptions, &str)> {
        self.0.added.iter().filter_map(|added| match added {
            Added::Line { options, line, .. } => Some((options, line.as_str())),
            Added::File { .. } => None,
        })
    }
}
