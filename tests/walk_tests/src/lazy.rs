//! A directory is listed when it is entered, and not before.
ghost use Rattle.std.specs.Iterator.{IsFinite};

use crate::noted::Noted;
use crate::trees::tree_of;
use crate::walks::{ground_of, options};
use ignore_files::Name;
use ignore_walk::{Item, Walk};
use std::alloc::Global;

/// Takes this many items of a walk of `/t`.
fn take(alloc: Global, files: &Noted<'_>, items: u8) -> anyhow::Result<()> {
    let mut names = Vec::new(alloc);
    names.push(Name::new(String::from_str(alloc, "/t")?))?;
    let walk = Walk::new(ground_of(alloc, files, options()), names);
    take_first(walk, items);
    Ok(())
}

/// Takes this many items, at least one.
fn take_first<I: Iterator<Item = Item> + Drop>(walk: I, items: u8)
    requires ends { I.can_next walk × IsFinite (I.remaining walk) }
{
    let mut taken = 0u8;
    for _ in walk {
        taken = taken.saturating_add(1);
        if taken >= items {
            break;
        }
    }
}

/// Whether this directory was listed once so many items were taken.
fn is_listed(alloc: Global, dir: &str, items: u8) -> anyhow::Result<bool> {
    let lines = ["/t", "/t/a", "/t/a/x=", "/t/a/y=", "/t/b", "/t/b/z="];
    let tree = tree_of(alloc, &lines)?;
    let files = Noted::listing(&tree, dir);
    take(alloc, &files, items)?;
    Ok(files.listed.get())
}

#[test]
fn a_later_directory_is_not_listed_yet(rt: HostRuntime) -> anyhow::Result<()> {
    assert!(rt; is_listed(rt.alloc(), "/t/a", 3)?);
    assert!(rt; !is_listed(rt.alloc(), "/t/b", 3)?);
    Ok(())
}

#[test]
fn it_is_listed_when_it_is_entered(rt: HostRuntime) -> anyhow::Result<()> {
    assert!(rt; !is_listed(rt.alloc(), "/t/b", 4)?);
    assert!(rt; is_listed(rt.alloc(), "/t/b", 6)?);
    Ok(())
}
