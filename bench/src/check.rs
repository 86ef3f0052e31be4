//! Whether all that is timed answers the same, on a small part of the stored data.

use crate::globs::{Row, braced};
use crate::input::{first_lines, matcher_of, pattern_of, patterns_of};
use crate::matcher::{Matcher, OneByOne, count};
use crate::rules::set_of;
use ignore_base::Error;
use ignore_rules::gitignore::Gitignore;
use std::alloc::Global;
use std::fs;

/// How many texts are taken.
const TEXTS: usize = 400;

/// How many paths are taken.
const PATHS: usize = 100;

/// How many rules are taken: enough that their needles stand in buckets.
const RULES: usize = 5_000;

/// Prints for each glob how many texts are matched by each matcher, and for the first rules how
/// many paths are matched by each way of asking them.
pub(crate) fn check(rt: &HostRuntime) -> Result<(), Error> {
    check_globs(rt)?;
    let paths = fs::read_to_string(rt, "ignored")?;
    let rules = fs::read_to_string(rt, "rules")?;
    check_rules(rt, rules.as_str(), paths.as_str())
}

fn check_globs(rt: &HostRuntime) -> Result<(), Error> {
    let text = fs::read_to_string(rt, "texts")?;
    let globs = fs::read_to_string(rt, "globs")?;
    check_rows(rt, globs.as_str(), text.as_str())
}

fn check_rows(rt: &HostRuntime, globs: &str, text: &str) -> Result<(), Error> {
    let texts = first_lines(rt.alloc(), text, TEXTS)?;
    for line in globs.lines() {
        check_row(rt, Row::of(line), texts.as_slice())?;
    }
    Ok(())
}

fn check_row(rt: &HostRuntime, row: Row<'_>, texts: &[&str]) -> Result<(), Error> {
    let plain = counted(row.plain(rt.alloc())?, texts)?;
    let pattern = counted(pattern_of(rt.alloc(), row.glob)?, texts)?;
    let braced = counted(braced(rt.alloc(), row.glob)?, texts)?;
    let glob = row.glob;
    println!(rt; "{glob}: plain {plain}, pattern {pattern}, in braces {braced}")?;
    Ok(())
}

fn check_rules(rt: &HostRuntime, rules: &str, paths: &str) -> Result<(), Error> {
    let paths = first_lines(rt.alloc(), paths, PATHS)?;
    check_first(rt, rules, paths.as_slice())
}

fn check_first(rt: &HostRuntime, rules: &str, paths: &[&str]) -> Result<(), Error> {
    let matcher = matcher_of(rt.alloc(), rules, RULES)?;
    let (set, list) = counted_otherwise(rt.alloc(), &matcher, paths)?;
    let rules = matcher.len();
    let matcher = counted(matcher, paths)?;
    println!(rt; "{rules} rules: set {set}, matcher {matcher}, one by one {list}")?;
    Ok(())
}

/// How many of the paths the set of a matcher's rules matches, and how many the rules one by one.
fn counted_otherwise(
    alloc: Global,
    matcher: &Gitignore,
    paths: &[&str],
) -> Result<(u64, u64), Error> {
    let set = counted(set_of(alloc, matcher)?, paths)?;
    let list = counted(OneByOne(patterns_of(alloc, matcher)?), paths)?;
    Ok((set, list))
}

/// How many of the texts a matcher matches.
fn counted<M: Matcher + Drop>(mut matcher: M, texts: &[&str]) -> Result<u64, Error> {
    count(&mut matcher, texts)
}
