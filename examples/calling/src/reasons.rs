//! Why a matcher answers as it does.

use ignore::files::{Env, MemoryTree};
use ignore::{
    Cause, Explanation, IncrementalIgnore, Match, NamedRule, NamedType, Reason, RuleRank,
    WalkBuilder,
};

/// Says of a rule what a report has of it.
fn show(rt: &HostRuntime, rule: &NamedRule) -> anyhow::Result<()> {
    let list = match rule.rank {
        RuleRank::Custom | RuleRank::Explicit => "a file of your own",
        RuleRank::Ignore => ".ignore",
        RuleRank::Gitignore => ".gitignore",
        RuleRank::Exclude | RuleRank::Global => "git's configuration",
    };
    println!(rt; "{} of {list}, line {:?}", rule.original, rule.line)?;
    Ok(())
}

/// Says by which rule or type a path is ignored.
fn decided(rt: &HostRuntime, explained: &Explanation) -> anyhow::Result<()> {
    match &explained.reason {
        Reason::Decided(Match::Ignore(Cause::Rule(rule))) => show(rt, rule)?,
        Reason::Decided(Match::Ignore(Cause::Type(Some(NamedType { name, glob })))) => {
            println!(rt; "{glob} of the type {name}")?;
        }
        Reason::Inside { directory, .. } => println!(rt; "in {directory}")?,
        _ => println!(rt; "{explained}")?,
    }
    Ok(())
}

/// Asks for the reason of a path.
fn explain(
    rt: &HostRuntime,
    matcher: &mut IncrementalIgnore,
    files: &MemoryTree,
    path: &str,
) -> anyhow::Result<()> {
    let (explained, _) = matcher.explain(files, path, false)?;
    println!(rt; "{path}: {explained}")?; // .gitignore:3:*.o, hidden, type rust, override *.rs, ..
    decided(rt, &explained)
}

pub fn ask(rt: &HostRuntime, files: &MemoryTree, env: &Env) -> anyhow::Result<()> {
    let mut builder = WalkBuilder::new(rt.alloc(), "/project")?;
    builder.require_git(false);
    for mut matcher in builder.build_matchers(files, env)? {
        for path in ["a.o", "src/gen.c", ".x", "tmp/b", "src/main.c"] {
            explain(rt, &mut matcher, files, path)?;
        }
    }
    Ok(())
}
