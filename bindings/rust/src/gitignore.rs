//! Rules of gitignore files, as in the original's module of this name.

use crate::every::{self, Counted, Difference, Finding};
use crate::library::{self, Counts, Manner, Reason, RuleOptions, Rules};
use crate::{Error, Match};
use std::cell::RefCell;
use std::fs;
use std::os::unix::ffi::OsStrExt;
use std::path::{Path, PathBuf};

/// A rule that decided.
#[derive(Clone, Debug, PartialEq, Eq)]
pub struct Glob {
    from: Option<PathBuf>,
    original: String,
    actual: String,
    line: Option<u64>,
    is_only_dir: bool,
}

impl Glob {
    /// The file that the rule is from, if one was given.
    pub fn from(&self) -> Option<&Path> {
        self.from.as_deref()
    }

    /// Its line, without white space at the end.
    pub fn original(&self) -> &str {
        &self.original
    }

    /// The glob that the line stands for.
    pub fn actual(&self) -> &str {
        &self.actual
    }

    /// The number of its line, if that is known.
    pub fn line(&self) -> Option<u64> {
        self.line
    }

    /// Whether the line begins with `!`.
    pub fn is_whitelist(&self) -> bool {
        self.original.starts_with('!')
    }

    /// Whether it applies to directories only.
    pub fn is_only_dir(&self) -> bool {
        self.is_only_dir
    }
}

/// Builds a matcher of lines and files.
pub struct GitignoreBuilder {
    rules: Rules,
    options: RuleOptions,
}

impl GitignoreBuilder {
    /// A builder of rules relative to a directory.
    pub fn new<P: AsRef<Path>>(root: P) -> Result<GitignoreBuilder, Error> {
        let options = RuleOptions {
            case_insensitive: false,
            allow_unclosed_class: true,
            git_trailing_spaces: false,
        };
        let rules = Rules::new(bytes_of(root.as_ref()), &options).map_err(error_of)?;
        Ok(GitignoreBuilder { rules, options })
    }

    /// Adds a line, as in gitignore(5). After an error nothing is added.
    pub fn add_line(&mut self, from: Option<PathBuf>, line: &str) -> Result<&mut Self, Error> {
        let from = from.unwrap_or_default();
        let code = self.rules.add_line(bytes_of(&from), line.as_bytes());
        self.added(code)?;
        Ok(self)
    }

    /// Adds the lines of a file on disk. `Error::Invalid`: some lines are invalid, and the others
    /// are added.
    pub fn add<P: AsRef<Path>>(&mut self, path: P) -> Result<&mut Self, Error> {
        let text = fs::read(path.as_ref())?;
        self.add_str(path, &text)
    }

    /// Adds the lines of a text that stands for the file at a path.
    pub fn add_str<P: AsRef<Path>>(&mut self, path: P, text: &[u8]) -> Result<&mut Self, Error> {
        let code = self.rules.add_file(bytes_of(path.as_ref()), text);
        self.added(code)?;
        Ok(self)
    }

    /// Whether later lines match both ASCII cases of a letter.
    pub fn case_insensitive(&mut self, yes: bool) -> Result<&mut Self, Error> {
        self.options.case_insensitive = yes;
        self.set()
    }

    /// Whether in later lines a `[` that nothing closes stands for itself.
    pub fn allow_unclosed_class(&mut self, yes: bool) -> Result<&mut Self, Error> {
        self.options.allow_unclosed_class = yes;
        self.set()
    }

    /// Whether white space at the end of later lines is read by git's own rule.
    pub fn git_trailing_spaces(&mut self, yes: bool) -> Result<&mut Self, Error> {
        self.options.git_trailing_spaces = yes;
        self.set()
    }

    /// The matcher of the lines; the builder is consumed.
    pub fn build(mut self) -> Result<Gitignore, Error> {
        let mut counts = Counts::default();
        done(self.rules.build())?;
        done(self.rules.counts(&mut counts))?;
        let asked = Asked {
            rules: self.rules,
            room: vec![0; 512],
        };
        Ok(Gitignore {
            asked: RefCell::new(asked),
            counts,
        })
    }

    fn set(&mut self) -> Result<&mut Self, Error> {
        done(self.rules.set_options(&self.options))?;
        Ok(self)
    }

    fn added(&mut self, code: u32) -> Result<(), Error> {
        if code != library::REFUSED {
            return done(code);
        }
        let (mut room, mut whole) = (vec![0; 512], 0);
        loop {
            done(self.rules.problem(&mut room, &mut whole))?;
            if whole <= room.len() {
                return Err(Error::Invalid(text_of(&room[..whole])?));
            }
            room.resize(whole, 0);
        }
    }
}

/// A matcher of paths. It stays on its thread.
pub struct Gitignore {
    asked: RefCell<Asked>,
    counts: Counts,
}

struct Asked {
    rules: Rules,
    room: Vec<u8>,
}

impl Gitignore {
    /// The rules of a file on disk, relative to its directory.
    pub fn new<P: AsRef<Path>>(path: P) -> Result<Gitignore, Error> {
        let root = path.as_ref().parent().unwrap_or(Path::new(""));
        let mut builder = GitignoreBuilder::new(root)?;
        builder.add(path)?;
        builder.build()
    }

    /// What the rules say of a path, with the rule that decided.
    pub fn matched<P: AsRef<Path>>(&self, path: P, is_dir: bool) -> Result<Match<Glob>, Error> {
        self.decided(path.as_ref(), is_dir, Manner::Alone)
    }

    /// The same of the path, or else of the nearest of its parents that has a match.
    pub fn matched_path_or_any_parents<P: AsRef<Path>>(
        &self,
        path: P,
        is_dir: bool,
    ) -> Result<Match<Glob>, Error> {
        self.decided(path.as_ref(), is_dir, Manner::WithParents)
    }

    /// What git says of a path: that of the first ignored folder on the way from the root, which
    /// isn't asked itself, and else that of the path.
    pub fn matched_as_git<P: AsRef<Path>>(
        &self,
        path: P,
        is_dir: bool,
    ) -> Result<Match<Glob>, Error> {
        self.decided(path.as_ref(), is_dir, Manner::AsGit)
    }

    /// What the rules say of a path, without the rule that decided, which costs less.
    pub fn kind<P: AsRef<Path>>(&self, path: P, is_dir: bool) -> Result<Match<()>, Error> {
        let path = bytes_of(path.as_ref());
        match self.asked.borrow_mut().rules.matched(path, is_dir) {
            library::NONE => Ok(Match::None),
            library::IGNORE => Ok(Match::Ignore(())),
            library::WHITELIST => Ok(Match::Whitelist(())),
            code => Err(error_of(code)),
        }
    }

    /// How many rules there are.
    pub fn len(&self) -> u64 {
        self.counts.ignores + self.counts.whitelists
    }

    /// Whether there are none.
    pub fn is_empty(&self) -> bool {
        self.len() == 0
    }

    /// How many rules ignore.
    pub fn num_ignores(&self) -> u64 {
        self.counts.ignores
    }

    /// How many rules whitelist.
    pub fn num_whitelists(&self) -> u64 {
        self.counts.whitelists
    }

    /// The rule at an index, counted from 0 in the order in which they were added.
    pub fn rule(&self, index: usize) -> Result<Option<Glob>, Error> {
        let listed = self.told(|rules, reason, room| rules.rule(index, reason, room))?;
        Ok(listed.inner().cloned())
    }

    /// The rules that decide on no path which the list reaches, in their order, and why; at most
    /// `limit` states are found, as `every::LIMIT`. `Error::TooLarge`, `Error::Rejected`.
    ///
    /// ```
    /// use ignore_proved::every::{Why, LIMIT};
    /// use ignore_proved::gitignore::GitignoreBuilder;
    ///
    /// let mut builder = GitignoreBuilder::new("")?;
    /// builder.add_line(None, "a.o")?.add_line(None, "*.o")?;
    /// let found = builder.build()?.findings(LIMIT)?;
    /// assert_eq!((found[0].rule, &found[0].why), (0, &Why::Overruled(vec![1])));
    /// # Ok::<(), ignore_proved::Error>(())
    /// ```
    pub fn findings(&self, limit: usize) -> Result<Vec<Finding>, Error> {
        every::findings_of(&mut self.asked.borrow_mut().rules, limit)
    }

    /// The rules that decide on no path which the list reaches, in their order. Errors as those of
    /// `findings`.
    pub fn dead(&self, limit: usize) -> Result<Vec<Glob>, Error> {
        let mut dead = Vec::new();
        for finding in self.findings(limit)? {
            dead.extend(self.rule(finding.rule)?);
        }
        Ok(dead)
    }

    /// A shortest path of which this list and another don't say the same, each at its own root, and
    /// what each says; none where they say the same of every path. Errors as those of `findings`.
    pub fn difference(
        &self,
        other: &Gitignore,
        counted: Counted,
        limit: usize,
    ) -> Result<Option<Difference>, Error> {
        if std::ptr::eq(self, other) {
            return Ok(None);
        }
        let (mut before, mut after) = (self.asked.borrow_mut(), other.asked.borrow_mut());
        every::difference_of(&mut before.rules, &mut after.rules, counted, limit)
    }

    /// Whether this list and another say the same of every path, each at its own root. Errors as
    /// those of `findings`.
    ///
    /// ```
    /// use ignore_proved::every::{Counted, LIMIT};
    /// use ignore_proved::gitignore::{Gitignore, GitignoreBuilder};
    /// use ignore_proved::Error;
    ///
    /// fn rules_of(lines: &[&str]) -> Result<Gitignore, Error> {
    ///     let mut builder = GitignoreBuilder::new("")?;
    ///     for line in lines {
    ///         builder.add_line(None, line)?;
    ///     }
    ///     builder.build()
    /// }
    ///
    /// let (one, two) = (rules_of(&["a/", "!a/b"])?, rules_of(&["a/"])?);
    /// assert!(one.same_as(&two, Counted::Verdicts, LIMIT)?);
    /// assert!(!one.same_as(&rules_of(&["a"])?, Counted::Verdicts, LIMIT)?);
    /// # Ok::<(), Error>(())
    /// ```
    pub fn same_as(
        &self,
        other: &Gitignore,
        counted: Counted,
        limit: usize,
    ) -> Result<bool, Error> {
        Ok(self.difference(other, counted, limit)?.is_none())
    }

    fn decided(&self, path: &Path, is_dir: bool, manner: Manner) -> Result<Match<Glob>, Error> {
        let path = bytes_of(path);
        self.told(|rules, reason, room| rules.decided(path, is_dir, manner, reason, room))
    }

    /// What a call answers that names a rule in a reason and a room.
    fn told(
        &self,
        mut ask: impl FnMut(&mut Rules, &mut Reason, &mut [u8]) -> u32,
    ) -> Result<Match<Glob>, Error> {
        let Asked { rules, room } = &mut *self.asked.borrow_mut();
        let mut reason = Reason::default();
        loop {
            let code = ask(rules, &mut reason, room);
            let whole = reason.source + reason.pattern + reason.glob;
            match code {
                library::NONE => return Ok(Match::None),
                library::IGNORE | library::WHITELIST if whole > room.len() => room.resize(whole, 0),
                library::IGNORE => return Ok(Match::Ignore(glob_of(&reason, room)?)),
                library::WHITELIST => return Ok(Match::Whitelist(glob_of(&reason, room)?)),
                code => return Err(error_of(code)),
            }
        }
    }
}

fn glob_of(reason: &Reason, room: &[u8]) -> Result<Glob, Error> {
    let (source, rest) = room.split_at(reason.source);
    let (original, rest) = rest.split_at(reason.pattern);
    Ok(Glob {
        from: if reason.has_source {
            Some(PathBuf::from(text_of(source)?))
        } else {
            None
        },
        original: text_of(original)?,
        actual: text_of(&rest[..reason.glob])?,
        line: if reason.line == 0 {
            None
        } else {
            Some(reason.line)
        },
        is_only_dir: reason.is_only_dir,
    })
}

pub(crate) fn bytes_of(path: &Path) -> &[u8] {
    path.as_os_str().as_bytes()
}

pub(crate) fn text_of(bytes: &[u8]) -> Result<String, Error> {
    String::from_utf8(bytes.to_vec()).map_err(|_| Error::NotUtf8)
}

pub(crate) fn done(code: u32) -> Result<(), Error> {
    if code == library::OK {
        return Ok(());
    }
    Err(error_of(code))
}

pub(crate) fn error_of(code: u32) -> Error {
    match code {
        library::NOT_UTF8 => Error::NotUtf8,
        library::NO_MEMORY => Error::Memory,
        library::OUTSIDE => Error::Outside,
        library::TOO_LARGE => Error::TooLarge,
        library::REFUSED => Error::Rejected,
        code => Error::Unexpected(code),
    }
}
