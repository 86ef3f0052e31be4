//! Questions about paths by all rules of their tree.

use ignore::files::{Env, Files, MemoryTree};
use ignore::text::normalize;
use ignore::{Error, IncrementalIgnore, IncrementalMatch, WalkBuilder, check_paths};
use std::alloc::Global;

/// Asks a matcher of each root about a path.
fn by_each_root(rt: &HostRuntime, files: &MemoryTree, env: &Env) -> anyhow::Result<()> {
    let mut builder = WalkBuilder::new(rt.alloc(), "/project")?;
    builder.hidden(false).max_depth(Some(8));
    for mut matcher in builder.build_matchers(files, env)? {
        let ignored = matcher.matched(files, "src/a.o", false)?.is_ignore();
        println!(rt; "src/a.o ignored: {ignored}")?;
    }
    Ok(())
}

/// What a walk would make of a directory.
fn of_folder(matcher: &mut IncrementalIgnore, files: &impl Files) -> Result<bool, Error> {
    let answer: IncrementalMatch = matcher.matched(files, "src", true)?;
    Ok(answer.is_none() && answer.should_descend() && answer.is_within_depth())
}

/// How many of some paths are ignored.
fn ignored_of(
    alloc: Global,
    matcher: &mut IncrementalIgnore,
    files: &impl Files,
) -> Result<usize, Error> {
    let mut paths = Vec::new(alloc);
    for path in ["a.o", "keep.o", "src/gen.c"] {
        paths.push((String::from_str(alloc, path)?, false))?;
    }
    let answers = check_paths(matcher, files, paths.as_slice())?;
    Ok(answers.iter().filter(|answer| answer.0.is_ignore()).count())
}

/// The only matcher of a builder with one root.
fn matcher_of(alloc: Global, files: &MemoryTree, env: &Env) -> anyhow::Result<IncrementalIgnore> {
    let builder = WalkBuilder::new(alloc, "/project")?;
    match builder.build_matchers(files, env)?.pop() {
        Some(matcher) => Ok(matcher),
        None => Err(Error::from(ignore::Fault::Other).into()),
    }
}

pub fn ask(rt: &HostRuntime, files: &MemoryTree, env: &Env) -> anyhow::Result<()> {
    by_each_root(rt, files, env)?;
    let mut matcher = matcher_of(rt.alloc(), files, env)?;
    println!(rt; "src is entered: {}", of_folder(&mut matcher, files)?)?;
    println!(rt;
        "of three paths ignored: {}",
        ignored_of(rt.alloc(), &mut matcher, files)?
    )?;
    println!(rt; "forgotten: {}", matcher.forget("src"))?;
    let path = normalize(rt.alloc(), None, "/project", "/project/src/../a.o")?;
    println!(rt; "normalized: {path:?}")?;
    Ok(())
}
