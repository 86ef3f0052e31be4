//! Walks of trees in memory, by steps.
ghost use Rattle.std.specs.Iterator.{IsFinite};

use crate::trees::tree_of;
use ignore_dir::{Outside, Settings};
use ignore_files::{Files, Name};
use ignore_walk::{Callbacks, DirEntry, Ground, Item, Options, Order, Walk};
use std::alloc::{AllocError, Global};
use std::cmp::Ordering;

/// No filter, and names in the order of their bytes.
#[derive(Clone, Copy, Drop)]
pub struct Plain;

impl Callbacks for Plain {
    ghost use Rattle.std.specs.Prelude.{◌≡◌, true, List, ℕ};
    ghost use Rattle.std.specs.Cmp.Lexicographic.{slice_cmp};
    ghost use Rattle.std.specs.Ordering.{nat_cmp};
    ghost use Rattle.ignore_walk.specs.Entry.{Entry};

    ghost filters = { λ _ keep. (e : Entry) → keep e ≡ true };

    ghost compares = { λ _ cmp. (a b : List ℕ) → cmp a b ≡ slice_cmp nat_cmp a b };

    fn filter(&self, _entry: &DirEntry) -> bool {
        true
    }

    fn compare(&self, a: &str, b: &str) -> Ordering {
        a.cmp(b)
    }
}

/// As they are listed, on any device, with steps enough.
pub fn options() -> Options {
    Options {
        order: Order::Listed,
        same_file_system: false,
        limit: 1000,
    }
}

/// An item as text: the path of an entry, or an error in brackets.
fn text_of(alloc: Global, item: &Item) -> Result<String, AllocError> {
    match item {
        Ok(entry) => String::from_str(alloc, entry.path()),
        Err(error) => format!(in alloc; "({error})"),
    }
}

fn push_item(alloc: Global, text: &mut String, item: &Item) -> Result<(), AllocError> {
    let line = text_of(alloc, item)?;
    text.push_str(line.as_str())?;
    text.push(' ')
}

/// A text to which an item is appended, where there was memory for it so far.
fn with(
    alloc: Global,
    text: Result<String, AllocError>,
    item: &Item,
) -> Result<String, AllocError> {
    let mut text = text?;
    push_item(alloc, &mut text, item)?;
    Ok(text)
}

/// A text to which a full stop is appended.
fn ended(text: Result<String, AllocError>) -> anyhow::Result<String> {
    let mut text = text?;
    text.push('.')?;
    Ok(text)
}

/// What stays the same in a walk by the settings at first, without rules from outside.
pub fn ground_of<'a, F: Files>(
    alloc: Global,
    files: &'a F,
    options: Options,
) -> Ground<'a, F, Plain> {
    Ground {
        alloc,
        files,
        owner: Plain,
        settings: Settings::standard(alloc),
        outside: Outside::empty(alloc),
        options,
    }
}

/// The items of a walk, and after its end a full stop.
pub fn items_of<I: Iterator<Item = Item> + Drop>(alloc: Global, walk: I) -> anyhow::Result<String>
    requires ends { I.can_next walk × IsFinite (I.remaining walk) }
{
    let mut text = Ok(String::new(alloc));
    for item in walk {
        text = with(alloc, text, &item);
    }
    ended(text)
}

/// The items of a walk of `/t` with this many steps, in a tree of two files.
fn limited(alloc: Global, limit: u64) -> anyhow::Result<String> {
    let tree = tree_of(alloc, &["/t", "/t/a=", "/t/b="])?;
    let mut options = options();
    options.limit = limit;
    let mut names = Vec::new(alloc);
    names.push(Name::new(String::from_str(alloc, "/t")?))?;
    let walk = Walk::new(ground_of(alloc, &tree, options), names);
    items_of(alloc, walk)
}

#[test]
fn steps_enough(rt: HostRuntime) -> anyhow::Result<()> {
    let text = limited(rt.alloc(), 4)?;
    assert_eq!(rt; text.as_str(), "/t /t/a /t/b .");
    Ok(())
}

#[test]
fn one_step_too_few(rt: HostRuntime) -> anyhow::Result<()> {
    let text = limited(rt.alloc(), 3)?;
    assert_eq!(rt; text.as_str(), "/t /t/a /t/b (step limit reached) .");
    Ok(())
}

#[test]
fn no_step(rt: HostRuntime) -> anyhow::Result<()> {
    let text = limited(rt.alloc(), 0)?;
    assert_eq!(rt; text.as_str(), "(step limit reached) .");
    Ok(())
}
