//! What is timed: anything that matches texts.

use crate::plain::Plain;
use ignore_base::Error;
use ignore_glob::glob::Pattern;
use ignore_rules::gitignore::Gitignore;
use ignore_set::PatternSet;
use std::time::{CpuClock, Duration};

/// Something that matches texts or doesn't.
pub(crate) trait Matcher {
    /// Whether the text is matched.
    fn is_match(&mut self, text: &str) -> Result<bool, Error>;
}

impl Matcher for Pattern {
    fn is_match(&mut self, text: &str) -> Result<bool, Error> {
        self.matches(text)
    }
}

impl Matcher for Plain {
    fn is_match(&mut self, text: &str) -> Result<bool, Error> {
        self.matches(text)
    }
}

impl Matcher for PatternSet {
    fn is_match(&mut self, text: &str) -> Result<bool, Error> {
        Ok(self.last_match(text, false)?.is_some())
    }
}

impl Matcher for Gitignore {
    fn is_match(&mut self, text: &str) -> Result<bool, Error> {
        Ok(!self.matched(text, false)?.is_none())
    }
}

/// Patterns that are asked one by one, from the last to the first.
#[derive(Drop)]
pub(crate) struct OneByOne(pub(crate) Vec<(Pattern, bool)>);

impl Matcher for OneByOne {
    fn is_match(&mut self, text: &str) -> Result<bool, Error> {
        for i in (0..self.0.len()).rev() {
            let (pattern, only_dir) = &self.0[i];
            if !*only_dir && pattern.matches(text)? {
                return Ok(true);
            }
        }
        Ok(false)
    }
}

/// How many of the texts are matched.
pub(crate) fn count<M: Matcher>(matcher: &mut M, texts: &[&str]) -> Result<u64, Error> {
    let mut matched = 0u64;
    for text in texts {
        if matcher.is_match(text)? {
            matched = matched.saturating_add(1);
        }
    }
    Ok(matched)
}

/// Asks about each text once, and prints under the name how many nanoseconds of the processor that
/// took and how many of the texts are matched.
pub(crate) fn time<M: Matcher>(
    rt: &(impl Print + CpuClock),
    name: &str,
    matcher: &mut M,
    texts: &[&str],
) -> Result<(), Error> {
    let start = rt.process_cpu_time()?;
    let matched = count(matcher, texts)?;
    let end = rt.process_cpu_time()?;
    let nanos = nanos_of(end.saturating_sub(start));
    println!(rt; "{name} {nanos} {matched}")?;
    Ok(())
}

pub(crate) fn nanos_of(time: Duration) -> u64 {
    time.as_secs()
        .saturating_mul(1_000_000_000)
        .saturating_add(u64::from(time.subsec_nanos()))
}
