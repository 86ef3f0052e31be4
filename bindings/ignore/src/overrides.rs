//! Globs of a command line, which decide before all other rules.

use crate::gitignore::{self, Gitignore, GitignoreBuilder};
use crate::library::RuleOptions;
use crate::{Error, Match};
use std::path::Path;

/// The glob that decided, or that none did: where a glob whitelists, a file that no glob matches is
/// ignored.
#[derive(Clone, Debug)]
pub struct Glob<'a>(#[allow(dead_code)] Option<&'a gitignore::Glob>);

/// Globs of a command line.
#[derive(Clone, Debug)]
pub struct Override(Gitignore);

impl Override {
    /// No globs, which match nothing.
    pub fn empty() -> Override {
        Override(Gitignore::empty())
    }

    /// The directory to which the globs are relative.
    pub fn path(&self) -> &Path {
        self.0.path()
    }

    /// Whether there are no globs.
    pub fn is_empty(&self) -> bool {
        self.0.is_empty()
    }

    /// How many globs ignore: those with a leading `!`.
    pub fn num_ignores(&self) -> u64 {
        self.0.num_whitelists()
    }

    /// How many globs whitelist.
    pub fn num_whitelists(&self) -> u64 {
        self.0.num_ignores()
    }

    /// What the globs say of a path, a directory or not.
    ///
    /// Where a glob whitelists, a file that none matches is ignored. The path is stripped as by
    /// [`Gitignore::matched`].
    pub fn matched<'a, P: AsRef<Path>>(&'a self, path: P, is_dir: bool) -> Match<Glob<'a>> {
        match self.0.matched(path, is_dir).invert() {
            Match::None if self.num_whitelists() > 0 && !is_dir => Match::Ignore(Glob(None)),
            found => found.map(|glob| Glob(Some(glob))),
        }
    }

    /// The globs, with how they are read.
    pub(crate) fn globs(&self) -> impl Iterator<Item = (&RuleOptions, &str)> {
        self.0.lines()
    }
}

/// Builds a list of globs.
#[derive(Clone, Debug)]
pub struct OverrideBuilder(GitignoreBuilder);

impl OverrideBuilder {
    /// A builder of globs relative to a directory, without globs.
    pub fn new<P: AsRef<Path>>(path: P) -> OverrideBuilder {
        let mut builder = GitignoreBuilder::new(path);
        builder.allow_unclosed_class(false);
        OverrideBuilder(builder)
    }

    /// The globs that were added so far.
    pub fn build(&self) -> Result<Override, Error> {
        self.0.build().map(Override)
    }

    /// Adds a glob, which is read as a line of a gitignore file, and means the opposite: it
    /// whitelists what it matches, and with a leading `!` ignores it. After an error nothing is
    /// added.
    pub fn add(&mut self, glob: &str) -> Result<&mut OverrideBuilder, Error> {
        self.0.add_line(None, glob)?;
        Ok(self)
    }

    /// Whether both ASCII cases of a letter match, in globs that are added from now on. At first
    /// they don't. It is never an error.
    pub fn case_insensitive(&mut self, yes: bool) -> Result<&mut OverrideBuilder, Error> {
        self.0.case_insensitive(yes)?;
        Ok(self)
    }

    /// Whether a `[` that nothing closes stands for itself, in globs that are added from now on;
    /// else it is an error. At first it is.
    pub fn allow_unclosed_class(&mut self, yes: bool) -> &mut OverrideBuilder {
        self.0.allow_unclosed_class(yes);
        self
    }
}
