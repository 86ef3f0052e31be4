//! The paths that rules ignore, as `git check-ignore --stdin` lists them.

use crate::input::matcher_of;
use ignore_base::Error;
use ignore_rules::gitignore::Gitignore;
use std::fs;
use std::io::{BufWriter, Write};

/// Prints those of the paths in a file, none of a directory, that the rules of another file ignore,
/// or a directory above.
pub(crate) fn list(rt: &HostRuntime, rules: &str, paths: &str) -> Result<(), Error> {
    let paths = fs::read_to_string(rt, paths)?;
    let matcher = matcher_in(rt, rules)?;
    let mut out = BufWriter::new(rt.alloc(), rt.stdout())?;
    write_ignored(&mut out, &matcher, paths.as_str())
}

/// The matcher of the lines of a file.
fn matcher_in(rt: &HostRuntime, rules: &str) -> Result<Gitignore, Error> {
    let rules = fs::read_to_string(rt, rules)?;
    matcher_of(rt.alloc(), rules.as_str(), usize::MAX)
}

/// Writes those of the paths that are ignored, each on a line.
fn write_ignored<W: Write>(out: &mut W, matcher: &Gitignore, paths: &str) -> Result<(), Error> {
    for path in paths.lines() {
        if is_ignored(matcher, path)? {
            writeln!(out, "{path}")?;
        }
    }
    Ok(out.flush()?)
}

/// Whether the path, not of a directory, or a directory above it is ignored. One that isn't under
/// the root is not.
fn is_ignored(matcher: &Gitignore, path: &str) -> Result<bool, Error> {
    if matcher.is_under_root(path) {
        Ok(
            matcher
                .matched_path_or_any_parents(path, false)?
                .is_ignore(),
        )
    } else {
        Ok(false)
    }
}
