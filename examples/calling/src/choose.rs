//! File types, and globs of a command line.

use ignore::default_types::{DEFAULT_TYPES, DefaultType};
use ignore::overrides::{self, Override, OverrideBuilder};
use ignore::types::{self, FileTypeDef, Types, TypesBuilder};
use ignore::{Error, Match};
use std::alloc::Global;

/// The default types, one more, of which one is selected.
fn chosen_types(alloc: Global) -> Result<Types, Error> {
    let mut types = TypesBuilder::new(alloc);
    types.add_defaults()?;
    types.add("py", "*.py")?;
    types.select("py")?;
    types.build()
}

/// Globs as of a command line.
fn chosen_globs(alloc: Global) -> Result<Override, Error> {
    let mut globs = OverrideBuilder::new(alloc, "project")?;
    globs.add("*.rs")?.add("!gen.rs")?;
    globs.build()
}

/// Says by which glob of which type a file is chosen; a file that no type chooses has neither.
fn by_type(rt: &HostRuntime, types: &Types, path: &str) -> anyhow::Result<()> {
    let answer: Match<types::Glob<'_>> = types.matched(path, false)?;
    println!(rt; "{path} ignored by types: {}", answer.is_ignore())?;
    if let Some(glob) = answer.inner() {
        let chosen: Option<&FileTypeDef> = glob.file_type_def();
        println!(rt;
            "{path}: type {:?}, glob {:?}",
            chosen.map(|it| it.name()),
            glob.glob()
        )?;
    }
    Ok(())
}

/// Says by which glob a file is chosen or left out; a file that no glob matches has none.
fn by_glob(rt: &HostRuntime, globs: &Override, path: &str) -> anyhow::Result<()> {
    let answer: Match<overrides::Glob<'_>> = globs.matched(path, false)?;
    println!(rt; "{path} ignored by globs: {}", answer.is_ignore())?;
    if let Some(glob) = answer.inner() {
        println!(rt;
            "{path}: glob {:?}",
            glob.rule().map(|rule| rule.original())
        )?;
    }
    Ok(())
}

/// The first of the default types.
fn first_default(rt: &HostRuntime) -> anyhow::Result<()> {
    let (names, globs): DefaultType = DEFAULT_TYPES[0];
    println!(rt; "{:?} has {:?}", names.first(), globs.first())?;
    Ok(())
}

pub fn ask(rt: &HostRuntime) -> anyhow::Result<()> {
    let types = chosen_types(rt.alloc())?;
    by_type(rt, &types, "a.py")?;
    by_type(rt, &types, "a.rs")?;
    let globs = chosen_globs(rt.alloc())?;
    by_glob(rt, &globs, "gen.rs")?;
    by_glob(rt, &globs, "a.py")?;
    first_default(rt)
}
