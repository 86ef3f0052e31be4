//! Walks and single paths at 300 levels, and walks of 100 roots, with ample memory.
use crate::trees::UNKNOWN;
use ignore::files::{MemoryTree, TreeError};
use ignore::{Error, IncrementalIgnore, Item, WalkBuilder, collect_walk};
use std::alloc::Global;
use std::test::Fail;

/// How deep the deepest file is below its root.
const LEVELS: u32 = 300;

/// How many roots there are.
const ROOTS: u32 = 100;

/// A root `/p` with rules, and a chain of directories `d` below it, with a file at its end. Each
/// tenth directory has rules of its own, the last of which whitelist the file.
fn chain(alloc: Global) -> Result<MemoryTree, TreeError> {
    let mut tree = MemoryTree::new(alloc, "/")?;
    tree.add_dir("/p")?;
    tree.add_file("/p/.ignore", b"*.o\n")?;
    let mut path = String::from_str(alloc, "/p")?;
    for level in 1..LEVELS {
        path.push_str("/d")?;
        tree.add_dir(path.as_str())?;
        add_rules(&mut tree, &mut path, level)?;
    }
    path.push_str("/a.o")?;
    tree.add_file(path.as_str(), b"")?;
    Ok(tree)
}

/// Adds rules to each tenth directory: the file is ignored, or whitelisted, in turns.
fn add_rules(tree: &mut MemoryTree, path: &mut String, level: u32) -> Result<(), TreeError> {
    if level % 10 != 0 {
        return Ok(());
    }
    let len = path.len();
    path.push_str("/.ignore")?;
    let rules: &[u8] = if level % 20 == 0 { b"*.o\n" } else { b"!a.o\n" };
    tree.add_file(path.as_str(), rules)?;
    path.truncate(len);
    Ok(())
}

/// The path of the file below `/p`, without its name.
fn way(alloc: Global) -> Result<String, TreeError> {
    let mut path = String::new(alloc);
    for _ in 1..LEVELS {
        path.push_str("d/")?;
    }
    Ok(path)
}

/// How many items of a walk are entries, and whether one of them has the name `a.o`.
fn counted(items: &[Item]) -> (usize, bool) {
    let mut count = 0usize;
    let mut has_file = false;
    for item in items {
        if let Ok(entry) = item {
            count = count.saturating_add(1);
            has_file |= entry.file_name() == "a.o";
        }
    }
    (count, has_file)
}

fn walked(alloc: Global, tree: &MemoryTree) -> Result<(usize, bool), Error> {
    let builder = WalkBuilder::new(alloc, "/p")?;
    let items = collect_walk(&builder, tree, &UNKNOWN)?;
    Ok(counted(items.as_slice()))
}

/// The nearest rules whitelist the file, so that it is listed, with each directory.
#[test]
fn a_walk_of_300_levels(rt: HostRuntime) -> Result<(), Fail> {
    let tree = chain(rt.alloc())?;
    let found = walked(rt.alloc(), &tree)?;
    assert_eq!(rt; found, (LEVELS as usize + 1, true));
    Ok(())
}

fn matcher(alloc: Global, tree: &MemoryTree) -> Result<Option<IncrementalIgnore>, Error> {
    let builder = WalkBuilder::new(alloc, "/p")?;
    let mut matchers = builder.build_matchers(tree, &UNKNOWN)?;
    Ok(matchers.pop())
}

/// Whether the file is whitelisted, and another one ignored, at 300 levels.
fn asked(alloc: Global, tree: &MemoryTree) -> Result<(bool, bool), Fail> {
    let Some(mut matcher) = matcher(alloc, tree)? else {
        return Ok((false, false));
    };
    let mut path = way(alloc)?;
    let len = path.len();
    path.push_str("a.o")?;
    let is_kept = matcher.matched(tree, path.as_str(), false)?.is_whitelist();
    path.truncate(len);
    path.push_str("b.o")?;
    Ok((
        is_kept,
        matcher.matched(tree, path.as_str(), false)?.is_ignore(),
    ))
}

#[test]
fn a_query_of_300_levels(rt: HostRuntime) -> Result<(), Fail> {
    let tree = chain(rt.alloc())?;
    assert_eq!(rt; asked(rt.alloc(), &tree)?, (true, true));
    Ok(())
}

/// So many roots, each with a file below rules that whitelist it, which stand below rules that
/// ignore it.
fn roots(alloc: Global) -> Result<MemoryTree, TreeError> {
    let mut tree = MemoryTree::new(alloc, "/")?;
    tree.add_file("/.ignore", b"*.o\n")?;
    for root in 0..ROOTS {
        add_root(alloc, &mut tree, root)?;
    }
    Ok(tree)
}

fn add_root(alloc: Global, tree: &mut MemoryTree, root: u32) -> Result<(), TreeError> {
    let path = format!(in alloc; "/r{root}")?;
    tree.add_dir(path.as_str())?;
    let rules = format!(in alloc; "/r{root}/.ignore")?;
    tree.add_file(rules.as_str(), b"!a.o\n")?;
    let file = format!(in alloc; "/r{root}/a.o")?;
    tree.add_file(file.as_str(), b"")?;
    let other = format!(in alloc; "/r{root}/b.o")?;
    tree.add_file(other.as_str(), b"")
}

fn walk_of_roots(alloc: Global, tree: &MemoryTree) -> Result<(usize, bool), Fail> {
    let mut builder = WalkBuilder::empty(alloc);
    for root in 0..ROOTS {
        let path = format!(in alloc; "/r{root}")?;
        builder.add(path.as_str())?;
    }
    let items = collect_walk(&builder, tree, &UNKNOWN)?;
    Ok(counted(items.as_slice()))
}

/// Of each root itself and one of its two files are listed.
#[test]
fn a_walk_of_100_roots(rt: HostRuntime) -> Result<(), Fail> {
    let tree = roots(rt.alloc())?;
    let found = walk_of_roots(rt.alloc(), &tree)?;
    assert_eq!(rt; found, (2 * ROOTS as usize, true));
    Ok(())
}
