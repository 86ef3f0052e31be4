//! What a match of one glob costs: by the plain matcher, and by the passes over positions.

use crate::input::{first_lines, pattern_of};
use crate::matcher::time;
use crate::plain::Plain;
use ignore_base::Error;
use ignore_glob::glob::Pattern;
use std::alloc::Global;
use std::fs;

/// A row of a file of globs: a glob, and the globs without braces that match the same together.
#[derive(Clone, Copy)]
pub(crate) struct Row<'r> {
    pub(crate) glob: &'r str,
    expanded: &'r str,
}

impl<'r> Row<'r> {
    /// The row of a line: words, the first of which is the glob. A glob without braces stands
    /// alone.
    pub(crate) fn of(line: &'r str) -> Row<'r> {
        match line.split_once(' ') {
            Some((glob, expanded)) => Row { glob, expanded },
            None => Row {
                glob: line,
                expanded: line,
            },
        }
    }

    /// The plain matcher of the glob.
    pub(crate) fn plain(&self, alloc: Global) -> Result<Plain, Error> {
        Ok(Plain::new(alloc, self.expanded)?)
    }
}

/// Prints for each glob of a file what it costs to match each line of another, in so many rounds.
pub(crate) fn time_globs(
    rt: &HostRuntime,
    globs: &str,
    texts: &str,
    rounds: usize,
) -> Result<(), Error> {
    let globs = fs::read_to_string(rt, globs)?;
    let text = fs::read_to_string(rt, texts)?;
    time_rows(rt, globs.as_str(), text.as_str(), rounds)
}

fn time_rows(rt: &HostRuntime, globs: &str, text: &str, rounds: usize) -> Result<(), Error> {
    let texts = first_lines(rt.alloc(), text, usize::MAX)?;
    for line in globs.lines() {
        time_row(rt, Row::of(line), texts.as_slice(), rounds)?;
    }
    Ok(())
}

/// The same of one glob: `plain`; `pattern`, as the library matches it; and `braced`, the glob in
/// braces, which has the library match it by flags.
fn time_row(rt: &HostRuntime, row: Row<'_>, texts: &[&str], rounds: usize) -> Result<(), Error> {
    let glob = row.glob;
    println!(rt; "glob {glob}")?;
    let mut ways = Ways::of(rt.alloc(), row)?;
    time_ways(rt, &mut ways, texts, rounds)
}

/// The same glob, in each way that it is matched.
#[derive(Drop)]
struct Ways {
    plain: Plain,
    pattern: Pattern,
    braced: Pattern,
}

impl Ways {
    fn of(alloc: Global, row: Row<'_>) -> Result<Ways, Error> {
        Ok(Ways {
            plain: row.plain(alloc)?,
            pattern: pattern_of(alloc, row.glob)?,
            braced: braced(alloc, row.glob)?,
        })
    }
}

fn time_ways(
    rt: &HostRuntime,
    ways: &mut Ways,
    texts: &[&str],
    rounds: usize,
) -> Result<(), Error> {
    for _ in 0..rounds {
        time(rt, "plain", &mut ways.plain, texts)?;
        time(rt, "pattern", &mut ways.pattern, texts)?;
        time(rt, "braced", &mut ways.braced, texts)?;
    }
    Ok(())
}

/// The pattern of a glob in braces, which the library matches by flags.
pub(crate) fn braced(alloc: Global, glob: &str) -> Result<Pattern, Error> {
    let braced = format!(in alloc; "{{{glob}}}")?;
    pattern_of(alloc, braced.as_str())
}
