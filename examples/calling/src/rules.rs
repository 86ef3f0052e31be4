//! Rules that are given as text.

use ignore::gitignore::{self, Gitignore, GitignoreBuilder};
use ignore::{Error, Match};
use std::alloc::Global;

/// The rules of some lines.
fn rules_of(alloc: Global, text: &str) -> Result<Gitignore, Error> {
    let mut builder = GitignoreBuilder::new(alloc, "project")?;
    for line in text.lines() {
        builder.add_line(None, line)?;
    }
    let rules = builder.build()?;
    Ok(rules)
}

/// Says which rule decides on a path.
fn decide(rt: &HostRuntime, rules: &Gitignore, path: &str) -> anyhow::Result<()> {
    let answer: Match<&gitignore::Glob> = rules.matched(path, false)?;
    match answer {
        Match::Ignore(rule) => println!(rt; "{path} ignored by {}", rule.original())?,
        Match::Whitelist(rule) => println!(rt; "{path} kept by {}", rule.original())?,
        Match::None => println!(rt; "{path}: no rule applies")?,
    }
    Ok(())
}

/// Says what is wrong with a line.
fn wrong_line(rt: &HostRuntime) -> anyhow::Result<()> {
    let mut builder = GitignoreBuilder::new(rt.alloc(), "project")?;
    let pushed = builder.push_line(None, "{a,b");
    match &pushed {
        Ok(()) => println!(rt; "a rule")?,
        Err(Error::Glob { err, .. }) => println!(rt; "left out: {err}")?,
        Err(error) => println!(rt; "{error}")?,
    }
    Ok(())
}

pub fn ask(rt: &HostRuntime) -> anyhow::Result<()> {
    let rules = rules_of(rt.alloc(), "*.o\n!keep.o\n")?;
    for path in ["a.o", "keep.o", "main.c"] {
        decide(rt, &rules, path)?;
    }
    wrong_line(rt)
}
