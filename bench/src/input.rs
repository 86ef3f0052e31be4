//! The words after the program's name, the lines of files, and the rules in them.

use ignore_base::Error;
use ignore_glob::glob::{Options, Pattern, PatternError};
use ignore_rules::gitignore::{Gitignore, GitignoreBuilder};
use std::alloc::{AllocError, Global};
use std::rt::Env;
use std::{env, io};

/// The words after the program's name.
pub(crate) fn words(rt: &(impl Env + AllocGlobal)) -> io::Result<Vec<String>> {
    let mut words = Vec::new(rt.alloc());
    for word in env::args(rt)?.skip(1) {
        words.push(word)?;
    }
    Ok(words)
}

/// The first lines of a text, so many at most.
pub(crate) fn first_lines(
    alloc: Global,
    text: &str,
    count: usize,
) -> Result<Vec<&str>, AllocError> {
    text.lines().take(count).collect(alloc)
}

/// The matcher of the first lines of a text, so many at most, for paths relative to its root.
pub(crate) fn matcher_of(alloc: Global, text: &str, count: usize) -> Result<Gitignore, Error> {
    let mut builder = GitignoreBuilder::new(alloc, "")?;
    for line in text.lines().take(count) {
        builder.push_line(None, line)?;
    }
    Ok(builder.into_gitignore())
}

/// The pattern of a glob in which an unclosed class is literal, as in a rule.
pub(crate) fn pattern_of(alloc: Global, glob: &str) -> Result<Pattern, Error> {
    let options = Options {
        case_insensitive: false,
        allow_unclosed_class: true,
    };
    match Pattern::parse(alloc, glob, options) {
        Ok(pattern) => Ok(pattern),
        Err(PatternError::Memory) => Err(Error::Memory),
        Err(PatternError::Fault(_)) => Err(Error::from(io::Error::from(
            io::ErrorKind::InvalidInput,
        ))),
    }
}

/// The patterns of a matcher's rules, each with whether it is for directories only.
pub(crate) fn patterns_of(alloc: Global, rules: &Gitignore) -> Result<Vec<(Pattern, bool)>, Error> {
    let mut patterns = Vec::new(alloc);
    for rule in rules.rules() {
        let pattern = pattern_of(alloc, rule.actual())?;
        patterns.push((pattern, rule.is_only_dir()))?;
    }
    Ok(patterns)
}
