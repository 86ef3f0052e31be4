//! What asks about single paths, and what walks.
use crate::rules::{machine, machine_with_folder};
use crate::trees::{UNKNOWN, tree_of};
use ignore::files::{MemoryTree, TreeError};
use ignore::{DirEntry, Error, IncrementalIgnore, WalkBuilder};
use std::alloc::{AllocError, Global};
use std::test::Fail;
use uses::backup::{complete_entries, complete_entries_of_table, complete_entries_on_disk};
use uses::explainer::left_out;
use uses::search::{Found, search_below, show};
use uses::single::{ask_once, matcher_below};
use uses::watcher::ask_after_change;

/// A folder with an ignored file.
const FOLDER: &[(&str, &[u8])] = &[
    ("/p/", b""),
    ("/p/.ignore", b"*.o\n"),
    ("/p/a.o", b""),
    ("/p/a.c", b""),
];

/// Whether a tree's hidden folder is ignored.
fn is_hidden_ignored(alloc: Global, tree: &MemoryTree) -> Result<bool, Error> {
    let (found, error) = ask_once(alloc, tree, &UNKNOWN, "/p", ".git", true)?;
    Ok(found.is_ignore() && error.is_none())
}

#[test]
fn a_tool_asks_about_one_path(rt: HostRuntime) -> Result<(), Fail> {
    let tree = tree_of(rt.alloc(), FOLDER)?;
    assert!(rt; is_hidden_ignored(rt.alloc(), &tree)?);
    Ok(())
}

/// Whether the reason for which a file of the folder is left out is this one.
fn is_left_out_by(
    alloc: Global,
    tree: &MemoryTree,
    path: &str,
    reason: &str,
) -> Result<bool, Error> {
    let mut matcher = matcher_below(alloc, tree, &UNKNOWN, "/p")?;
    match left_out(alloc, &mut matcher, tree, path)? {
        Some(text) => Ok(text.as_str() == reason),
        None => Ok(false),
    }
}

#[test]
fn a_tool_says_why(rt: HostRuntime) -> Result<(), Fail> {
    let tree = tree_of(rt.alloc(), FOLDER)?;
    assert!(rt; is_left_out_by(rt.alloc(), &tree, "a.o", "/p/.ignore:1:*.o")?);
    Ok(())
}

/// A repository with a file of rules in a folder of it.
fn repository(alloc: Global, rules: &[u8]) -> Result<MemoryTree, TreeError> {
    let none: &[u8] = b"";
    let dirs = [("/p/", none), ("/p/.git/", none), ("/p/src/", none)];
    let mut tree = tree_of(alloc, &dirs)?;
    tree.add_file("/p/src/.gitignore", rules)?;
    Ok(tree)
}

/// Whether a file of the folder is ignored, after its rules became these.
fn ignored_after(
    alloc: Global,
    matcher: &mut IncrementalIgnore,
    rules: &[u8],
) -> Result<bool, Fail> {
    let tree = repository(alloc, rules)?;
    let (found, error) = ask_after_change(matcher, &tree, "src", "src/a.o", false)?;
    Ok(found.is_ignore() && error.is_none())
}

fn matcher(alloc: Global, rules: &[u8]) -> Result<IncrementalIgnore, Fail> {
    let tree = repository(alloc, rules)?;
    Ok(matcher_below(alloc, &tree, &UNKNOWN, "/p")?)
}

/// Whether it is ignored, before and after a change of the rules.
fn watched(alloc: Global, matcher: &mut IncrementalIgnore) -> Result<(bool, bool), Fail> {
    let before = ignored_after(alloc, matcher, b"*.o\n")?;
    let after = ignored_after(alloc, matcher, b"*.c\n")?;
    Ok((before, after))
}

fn watched_by_one(alloc: Global) -> Result<(bool, bool), Fail> {
    let mut matcher = matcher(alloc, b"*.o\n")?;
    watched(alloc, &mut matcher)
}

#[test]
fn a_watcher_asks_again(rt: HostRuntime) -> Result<(), Fail> {
    assert_eq!(rt; watched_by_one(rt.alloc())?, (true, false));
    Ok(())
}

/// The paths of some entries, separated by spaces.
fn paths_of(alloc: Global, entries: &[DirEntry]) -> Result<String, AllocError> {
    let mut text = String::new(alloc);
    for entry in entries {
        text.push_str(entry.path())?;
        text.push(' ')?;
    }
    Ok(text)
}

/// The entries of a backup of a root in the folder.
fn backed_up(alloc: Global, tree: &MemoryTree, root: &str) -> Result<Vec<DirEntry>, Error> {
    let builder = WalkBuilder::new(alloc, root)?;
    complete_entries(alloc, &builder, tree, &UNKNOWN)
}

/// Their paths.
fn backup(alloc: Global, tree: &MemoryTree, root: &str) -> Result<String, Error> {
    let entries = backed_up(alloc, tree, root)?;
    Ok(paths_of(alloc, entries.as_slice())?)
}

#[test]
fn a_backup_has_all_entries(rt: HostRuntime) -> Result<(), Fail> {
    let tree = tree_of(rt.alloc(), FOLDER)?;
    assert_eq!(rt; backup(rt.alloc(), &tree, "/p")?.as_str(), "/p /p/a.c ");
    Ok(())
}

/// The paths of a backup of a file of the machine.
fn backup_of_machine(alloc: Global) -> Result<String, Error> {
    let entries = entries_of_machine(alloc)?;
    Ok(paths_of(alloc, entries.as_slice())?)
}

fn entries_of_machine(alloc: Global) -> Result<Vec<DirEntry>, Error> {
    let builder = WalkBuilder::new(alloc, "/p/.gitignore")?;
    entries_by(alloc, &builder)
}

fn entries_by(alloc: Global, builder: &WalkBuilder) -> Result<Vec<DirEntry>, Error> {
    let machine = machine(alloc)?;
    complete_entries_on_disk(alloc, builder, &machine, &UNKNOWN)
}

#[test]
fn a_backup_of_a_machine(rt: HostRuntime) -> Result<(), Fail> {
    let text = backup_of_machine(rt.alloc())?;
    assert_eq!(rt; text.as_str(), "/p/.gitignore ");
    Ok(())
}

fn entries_of_folder(alloc: Global, builder: &WalkBuilder) -> Result<Vec<DirEntry>, Error> {
    let machine = machine_with_folder(alloc)?;
    complete_entries_of_table(alloc, builder, &machine, &UNKNOWN)
}

/// The entries of a backup of a folder of a machine.
fn entries_by_table(alloc: Global) -> Result<Vec<DirEntry>, Error> {
    let builder = WalkBuilder::new(alloc, "/p")?;
    entries_of_folder(alloc, &builder)
}

/// Their paths.
fn backup_of_folder(alloc: Global) -> Result<String, Error> {
    let entries = entries_by_table(alloc)?;
    Ok(paths_of(alloc, entries.as_slice())?)
}

#[test]
fn a_backup_of_a_folder_of_a_machine(rt: HostRuntime) -> Result<(), Fail> {
    let text = backup_of_folder(rt.alloc())?;
    assert_eq!(rt; text.as_str(), "/p /p/a.c /p/l ");
    Ok(())
}

/// A folder with four files, of which one is ignored and one isn't UTF-8.
const SOURCES: &[(&str, &[u8])] = &[
    ("/p/", b""),
    ("/p/src/", b""),
    ("/p/.ignore", b"*.o\n"),
    ("/p/a.c", b"int x;\na needle\n\ntwo needles\r\n"),
    ("/p/a.o", b"needle\n"),
    ("/p/b.c", b"needle \xff\n"),
    ("/p/src/c.c", b"needle"),
];

/// What a search for a word finds below `/p`.
fn searched(alloc: Global, tree: &MemoryTree, word: &str) -> Result<Found, Error> {
    let builder = WalkBuilder::new(alloc, "/p")?;
    search_below(alloc, &builder, tree, &UNKNOWN, word)
}

/// What a search for `needle` finds: its hits, each on a line.
fn hits(alloc: Global, found: &Found) -> Result<Vec<u8>, Fail> {
    let mut out: Vec<u8> = Vec::new(alloc);
    show(found.hits.as_slice(), &mut out)?;
    Ok(out)
}

fn found(alloc: Global) -> Result<Found, Fail> {
    let tree = tree_of(alloc, SOURCES)?;
    Ok(searched(alloc, &tree, "needle")?)
}

#[test]
fn a_search_tool_finds_lines(rt: HostRuntime) -> Result<(), Fail> {
    let found = found(rt.alloc())?;
    let wanted = b"/p/src/c.c:1\n/p/a.c:2\n/p/a.c:4\n";
    assert_eq!(rt; hits(rt.alloc(), &found)?.as_slice(), wanted.as_slice());
    Ok(())
}
