//! Names that none may have, and a tree of a thousand levels.
ghost use Rattle.std.specs.Iterator.{IsFinite};

use crate::hostile::with_names;
use crate::walks::{ground_of, options};
use ignore_base::{Error, Fault};
use ignore_files::{Files, MemoryTree, Name};
use ignore_walk::{Item, Walk};
use std::alloc::Global;

/// The roots of a walk of `/t`.
fn roots(alloc: Global) -> anyhow::Result<Vec<Name>> {
    let mut names = Vec::new(alloc);
    names.push(Name::new(String::from_str(alloc, "/t")?))?;
    Ok(names)
}

/// Whether an error is the fault of a name that none may have, one level below the root.
fn is_bad_name(error: &Error) -> bool {
    error.depth() == Some(1) && error.io_error().copied() == Some(Fault::BadName)
}

/// How many entries a walk yields, and how many such faults; and whether there is anything else.
type Counts = (u32, u32, bool);

/// The counts with one item more.
fn with(counts: Counts, item: &Item) -> Counts {
    let (entries, faults, others) = counts;
    match item {
        Ok(_) => (entries.saturating_add(1), faults, others),
        Err(error) if is_bad_name(error) => (entries, faults.saturating_add(1), others),
        Err(_) => (entries, faults, true),
    }
}

/// The counts of a walk of `/t`.
fn counted<F: Files>(alloc: Global, files: &F) -> anyhow::Result<Counts> {
    let names = roots(alloc)?;
    let mut options = options();
    options.limit = u64::MAX;
    let walk = Walk::new(ground_of(alloc, files, options), names);
    Ok(counts_of(walk))
}

fn counts_of<I: Iterator<Item = Item> + Drop>(walk: I) -> Counts
    requires ends { I.can_next walk × IsFinite (I.remaining walk) }
{
    let mut counts = (0, 0, false);
    for item in walk {
        counts = with(counts, &item);
    }
    counts
}

#[test]
fn names_that_none_may_have(rt: HostRuntime) -> anyhow::Result<()> {
    let files = with_names(&["..", "a/b", ""]);
    assert_eq!(rt; counted(rt.alloc(), &files)?, (1, 3, false));
    Ok(())
}

/// A tree of so many directories, each in the one before, below `/t`.
fn nested(alloc: Global, levels: u32) -> anyhow::Result<MemoryTree> {
    let mut tree = MemoryTree::new(alloc, "/")?;
    let mut path = String::from_str(alloc, "/t")?;
    add_levels(&mut tree, &mut path, levels)?;
    Ok(tree)
}

fn add_levels(tree: &mut MemoryTree, path: &mut String, levels: u32) -> anyhow::Result<()> {
    tree.add_dir(path.as_str())?;
    for _ in 0..levels {
        path.push_str("/d")?;
        tree.add_dir(path.as_str())?;
    }
    Ok(())
}

#[test]
fn a_thousand_directories_each_in_the_other(rt: HostRuntime) -> anyhow::Result<()> {
    let tree = nested(rt.alloc(), 1000)?;
    assert_eq!(rt; counted(rt.alloc(), &tree)?, (1001, 0, false));
    Ok(())
}
