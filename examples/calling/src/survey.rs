//! What becomes of each entry, and which rules decide on none.

use ignore::files::{Env, MemoryTree};
use ignore::{Cause, IncrementalIgnore, Match, NamedRule, Reason, Survey, Surveyed, WalkBuilder};
use std::alloc::Global;

/// Says of each entry why it is left out, if it is.
fn each(rt: &HostRuntime, files: &MemoryTree, matcher: IncrementalIgnore) -> anyhow::Result<()> {
    let mut survey = Survey::new(rt.alloc(), files, matcher)?;
    survey.limit(1_000_000);
    for item in survey {
        match item {
            Ok(entry) => println!(rt; "{}: {}", entry.path, entry.explanation)?,
            Err(error) => eprintln!(rt; "{error}")?, // what can't be listed, in its place
        }
    }
    Ok(())
}

/// The source and the line of the rule that decides on an entry, if one does.
fn rule_of(entry: Surveyed) -> Option<(Option<String>, Option<u64>)> {
    let reason = entry.explanation.reason;
    match reason {
        Reason::Decided(Match::Ignore(Cause::Rule(rule))) => Some((rule.source, rule.line)),
        Reason::Decided(Match::Whitelist(Cause::Rule(rule))) => Some((rule.source, rule.line)),
        _other => None,
    }
}

/// The rules that decide on no entry.
fn unused(
    alloc: Global,
    files: &MemoryTree,
    matcher: IncrementalIgnore,
) -> anyhow::Result<Vec<NamedRule>> {
    let mut survey = Survey::new(alloc, files, matcher)?;
    let used: Vec<_> = (&mut survey)
        .filter_map(|item| item.ok().and_then(rule_of))
        .collect(alloc)?;
    let mut rules = survey.into_matcher().rules()?;
    rules.retain(|rule| !used
        .iter()
        .any(|it| it.0 == rule.source && it.1 == rule.line));
    Ok(rules)
}

pub fn ask(rt: &HostRuntime, files: &MemoryTree, env: &Env) -> anyhow::Result<()> {
    let builder = WalkBuilder::new(rt.alloc(), "/project")?;
    for matcher in builder.build_matchers(files, env)? {
        each(rt, files, matcher)?;
    }
    for matcher in builder.build_matchers(files, env)? {
        for rule in unused(rt.alloc(), files, matcher)? {
            println!(rt; "{rule}")?; // /project/.gitignore:2:!keep.o
        }
    }
    Ok(())
}
