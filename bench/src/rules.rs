//! What a query of many rules costs: by a set, by a matcher of lines, and rule by rule.

use crate::input::{first_lines, matcher_of, patterns_of};
use crate::matcher::{OneByOne, time};
use ignore_base::Error;
use ignore_rules::gitignore::Gitignore;
use ignore_set::PatternSet;
use std::alloc::Global;
use std::fs;

/// The set of a matcher's rules.
pub(crate) fn set_of(alloc: Global, rules: &Gitignore) -> Result<PatternSet, Error> {
    PatternSet::new(patterns_of(alloc, rules)?)
}

/// How many patterns the set tries by a pass over positions, for all these texts.
pub(crate) fn passes(set: &PatternSet, texts: &[&str]) -> Result<u64, Error> {
    let mut passes = 0u64;
    for text in texts {
        let (_, tried) = set.last_match_counted(text, false)?;
        passes = passes.saturating_add(tried);
    }
    Ok(passes)
}

/// Prints what it costs to ask the first rules of a file, so many, about each line of another: the
/// passes over positions of a set in all, and in so many rounds the times of the set, of the
/// matcher and of the rules one by one.
pub(crate) fn time_rules(
    rt: &HostRuntime,
    rules: &str,
    texts: &str,
    count: usize,
    rounds: usize,
) -> Result<(), Error> {
    let rules = fs::read_to_string(rt, rules)?;
    let text = fs::read_to_string(rt, texts)?;
    let texts = first_lines(rt.alloc(), text.as_str(), usize::MAX)?;
    time_first(rt, rules.as_str(), texts.as_slice(), count, rounds)
}

/// The same rules, in each way that they are asked.
#[derive(Drop)]
struct Ways {
    matcher: Gitignore,
    set: PatternSet,
    list: OneByOne,
}

impl Ways {
    /// The first rules of a text, so many.
    fn of(alloc: Global, rules: &str, count: usize) -> Result<Ways, Error> {
        let matcher = matcher_of(alloc, rules, count)?;
        let list = OneByOne(patterns_of(alloc, &matcher)?);
        let set = set_of(alloc, &matcher)?;
        Ok(Ways { matcher, set, list })
    }
}

fn time_first(
    rt: &HostRuntime,
    rules: &str,
    texts: &[&str],
    count: usize,
    rounds: usize,
) -> Result<(), Error> {
    let mut ways = Ways::of(rt.alloc(), rules, count)?;
    time_ways(rt, &mut ways, texts, rounds)
}

fn time_ways(
    rt: &HostRuntime,
    ways: &mut Ways,
    texts: &[&str],
    rounds: usize,
) -> Result<(), Error> {
    let (rules, passes) = (ways.matcher.len(), passes(&ways.set, texts)?);
    println!(rt; "rules {rules} passes {passes}")?;
    for _ in 0..rounds {
        time(rt, "set", &mut ways.set, texts)?;
        time(rt, "matcher", &mut ways.matcher, texts)?;
        time(rt, "one-by-one", &mut ways.list, texts)?;
    }
    Ok(())
}
