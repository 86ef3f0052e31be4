//! Rules over all paths.

use ignore::every::{
    Analysis, Comparison, Counted, Difference, Error, Example, Finding, Folder, Question, Said,
    Verdict, Wanted, compare, differences,
};
use ignore::gitignore::{Gitignore, GitignoreBuilder};
use std::alloc::Global;

/// The rules of some lines.
fn rules_of(alloc: Global, lines: &[&str]) -> Result<Gitignore, ignore::Error> {
    let mut builder = GitignoreBuilder::new(alloc, "")?;
    for line in lines {
        builder.push_line(None, line)?;
    }
    builder.build()
}

/// Says of each rule whether it can decide at all.
fn dead(rt: &HostRuntime, rules: &Gitignore) -> anyhow::Result<()> {
    let analysis = Analysis::of(rt.alloc(), rules, 100_000)?;
    for finding in &analysis.findings {
        match finding {
            Finding::Live(Question { path, .. }) => println!(rt; "decides on {path}")?,
            Finding::DeadByFolders(Example { folder, .. }) => println!(rt; "only in {folder}")?,
            Finding::Overruled(by) => println!(rt; "never, by {} others", by.len())?,
            Finding::Unreached => println!(rt; "only in ignored folders, or never")?,
        }
    }
    Ok(())
}

/// Says where two lists differ, if they do.
fn differ(rt: &HostRuntime, found: &Difference) -> anyhow::Result<()> {
    let was = match &found.old {
        Said::InFolder(Folder { path, .. }) => path.as_str(),
        _ => "no folder",
    };
    let is_ignored = found.new.verdict() == Verdict::Ignore;
    println!(rt;
        "{}: was ignored in {was}, now ignored: {is_ignored}",
        found.question.path
    )?;
    Ok(())
}

/// Compares two lists.
fn compared(rt: &HostRuntime, old: &Gitignore, new: &Gitignore) -> anyhow::Result<()> {
    match compare(rt.alloc(), old, new, Counted::Ignored, 100_000) {
        Ok(Comparison::Same) => println!(rt; "the same")?,
        Ok(Comparison::Differ(found)) => differ(rt, &found)?,
        Err(Error::TooLarge) => println!(rt; "more states than the limit")?,
        Err(error) => return Err(error.into()),
    }
    let wanted = Wanted {
        counted: Counted::Verdicts,
        most: 10,
    };
    let found = differences(rt.alloc(), old, new, wanted, 100_000)?;
    println!(rt; "differences: {}", found.len())?;
    Ok(())
}

pub fn ask(rt: &HostRuntime) -> anyhow::Result<()> {
    let old = rules_of(rt.alloc(), &["*.o", "build/", "build/a.c", "a.o"])?;
    let new = rules_of(rt.alloc(), &["*.o", "build/*", "!build/a.c"])?;
    dead(rt, &old)?;
    compared(rt, &old, &new)
}
