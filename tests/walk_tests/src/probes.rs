//! What a listing has shown isn't asked for again.
ghost use Rattle.std.specs.Iterator.{IsFinite};

use crate::noted::Noted;
use crate::trees::tree_of;
use crate::walks::{ground_of, options};
use ignore_files::{MemoryTree, Name};
use ignore_walk::{Item, Walk};
use std::alloc::Global;

/// The one root `/t`.
fn root(alloc: Global) -> anyhow::Result<Vec<Name>> {
    let mut names = Vec::new(alloc);
    names.push(Name::new(String::from_str(alloc, "/t")?))?;
    Ok(names)
}

/// Walks `/t` to the end, with custom files of these names.
fn walk(alloc: Global, files: &Noted<'_>, custom: &[&str]) -> anyhow::Result<()> {
    let root = root(alloc)?;
    let mut ground = ground_of(alloc, files, options());
    for name in custom {
        ground.settings.custom.push(name)?;
    }
    take_all(Walk::new(ground, root));
    Ok(())
}

/// Goes through all items.
fn take_all<I: Iterator<Item = Item> + Drop>(walk: I)
    requires ends { I.can_next walk × IsFinite (I.remaining walk) }
{
    for _ in walk {}
}

/// How many followed `stat`s a walk of this tree makes of what is in `/t`.
fn asked_in(
    alloc: Global,
    tree: &MemoryTree,
    custom: &[&str],
    is_whole: bool,
) -> anyhow::Result<u32> {
    let files = Noted::asking(tree, is_whole);
    walk(alloc, &files, custom)?;
    Ok(files.asked.get())
}

/// The same of a tree of these lines that says it is whole, and of one that doesn't.
fn asked(alloc: Global, lines: &[&str], custom: &[&str]) -> anyhow::Result<(u32, u32)> {
    let tree = tree_of(alloc, lines)?;
    let few = asked_in(alloc, &tree, custom, true)?;
    Ok((few, asked_in(alloc, &tree, custom, false)?))
}

/// Else the files of rules `.ignore` and `.gitignore`, `.git`, `.jj`, and the exclude file.
#[test]
fn nothing_is_asked_in_directories_without_such_names(rt: HostRuntime) -> anyhow::Result<()> {
    let lines = ["/t", "/t/a", "/t/a/x=", "/t/b"];
    assert_eq!(rt; asked(rt.alloc(), &lines, &[])?, (0, 15));
    Ok(())
}

#[test]
fn what_is_listed_is_asked_whatever_its_case(rt: HostRuntime) -> anyhow::Result<()> {
    for name in [
        "/t/.gitignore=",
        "/t/.GITIGNORE=",
        "/t/.Ignore=",
        "/t/.jj",
        "/t/.JJ=",
    ] {
        assert_eq!(rt; asked(rt.alloc(), &["/t", name], &[])?, (1, 5));
    }
    Ok(())
}

/// With `.git` the exclude file; but `.jj` isn't asked in either way where `.git` is there.
#[test]
fn of_a_repository_the_exclude_file_is_asked(rt: HostRuntime) -> anyhow::Result<()> {
    assert_eq!(rt; asked(rt.alloc(), &["/t", "/t/.git"], &[])?, (2, 4));
    assert_eq!(rt; asked(rt.alloc(), &["/t", "/t/.GIT"], &[])?, (2, 5));
    Ok(())
}

#[test]
fn a_custom_name_is_asked_where_it_is_listed(rt: HostRuntime) -> anyhow::Result<()> {
    assert_eq!(rt; asked(rt.alloc(), &["/t"], &["x.ignore"])?, (0, 6));
    assert_eq!(rt;
        asked(rt.alloc(), &["/t", "/t/X.ignore="], &["x.ignore"])?,
        (1, 6)
    );
    Ok(())
}

/// It isn't ASCII, or a path: what is listed doesn't show it.
#[test]
fn a_custom_name_that_is_not_plain_is_asked_always(rt: HostRuntime) -> anyhow::Result<()> {
    assert_eq!(rt;
        asked(rt.alloc(), &["/t"], &["conf/x.ignore", "\u{e9}", ".."])?,
        (3, 8)
    );
    Ok(())
}

/// How many are made where `/t` lists a fault, in a tree that says it is whole.
fn asked_beside_a_fault(alloc: Global) -> anyhow::Result<u32> {
    let mut tree = tree_of(alloc, &["/t"])?;
    tree.add_nameless("/t")?;
    asked_in(alloc, &tree, &[], true)
}

#[test]
fn all_are_asked_where_a_fault_is_listed(rt: HostRuntime) -> anyhow::Result<()> {
    assert_eq!(rt; asked_beside_a_fault(rt.alloc())?, 5);
    Ok(())
}
