//! What a builder makes, and walks that are made without one.
ghost use Rattle.std.specs.Iterator.{IsFinite};

use crate::trees::{UNKNOWN, tree_of};
use ignore::files::{MemoryTree, TreeError};
use ignore::{Error, IncrementalIgnore, Item, Order, Walk, WalkBuilder, WalkOptions};
use std::alloc::{AllocError, Global};
use std::test::Fail;

/// A directory with rules, an ignored file, and two others.
const TREE: &[(&str, &[u8])] = &[
    ("/t/", b""),
    ("/t/.ignore", b"c\n"),
    ("/t/c", b""),
    ("/t/b", b""),
    ("/t/a", b""),
];

/// That directory.
pub(crate) fn tree(alloc: Global) -> Result<MemoryTree, TreeError> {
    tree_of(alloc, TREE)
}

/// The path of an entry, or an error.
fn text_of(alloc: Global, item: &Item) -> Result<String, AllocError> {
    match item {
        Ok(entry) => String::from_str(alloc, entry.path()),
        Err(error) => format!(in alloc; "[{error}]"),
    }
}

/// Appends the path of an entry, or an error, and a space.
fn put(alloc: Global, item: &Item, text: &mut String) -> Result<(), AllocError> {
    let line = text_of(alloc, item)?;
    text.push_str(line.as_str())?;
    text.push(' ')
}

/// A text to which an item is appended, where there was memory for it so far.
fn with(
    alloc: Global,
    text: Result<String, AllocError>,
    item: &Item,
) -> Result<String, AllocError> {
    let mut text = text?;
    put(alloc, item, &mut text)?;
    Ok(text)
}

/// The items of a walk.
fn items_of<I: Iterator<Item = Item> + Drop>(alloc: Global, walk: I) -> Result<String, AllocError>
    requires ends { I.can_next walk × IsFinite (I.remaining walk) }
{
    let mut text = Ok(String::new(alloc));
    for item in walk {
        text = with(alloc, text, &item);
    }
    text
}

/// The items of a walk of one root.
fn of_one_root(alloc: Global, tree: &MemoryTree) -> Result<String, Error> {
    let walk = Walk::new(alloc, tree, &UNKNOWN, "/t")?;
    Ok(items_of(alloc, walk)?)
}

#[test]
fn a_walk_of_one_root(rt: HostRuntime) -> Result<(), Fail> {
    let tree = tree(rt.alloc())?;
    assert_eq!(rt; of_one_root(rt.alloc(), &tree)?.as_str(), "/t /t/b /t/a ");
    Ok(())
}

/// The items of a walk of two roots.
fn of_some_roots(alloc: Global, tree: &MemoryTree) -> Result<String, Error> {
    let walk = Walk::from_iter(alloc, tree, &UNKNOWN, ["/t/b", "-"])?;
    Ok(items_of(alloc, walk)?)
}

#[test]
fn a_walk_of_some_roots(rt: HostRuntime) -> Result<(), Fail> {
    let tree = tree(rt.alloc())?;
    assert_eq!(rt; of_some_roots(rt.alloc(), &tree)?.as_str(), "/t/b <stdin> ");
    Ok(())
}

/// The matchers of some roots.
fn matchers(
    alloc: Global,
    tree: &MemoryTree,
    roots: &[&str],
) -> Result<Vec<IncrementalIgnore>, Error> {
    let builder = WalkBuilder::from_iter(alloc, roots.iter().copied())?;
    builder.build_matchers(tree, &UNKNOWN)
}

/// The roots of some matchers, each followed by a space.
fn roots_of(alloc: Global, matchers: &[IncrementalIgnore]) -> Result<String, Error> {
    let mut text = String::new(alloc);
    for matcher in matchers {
        text.push_str(matcher.root())?;
        text.push(' ')?;
    }
    Ok(text)
}

/// The roots of the matchers of three roots.
fn roots_of_three(alloc: Global, tree: &MemoryTree) -> Result<String, Error> {
    let matchers = matchers(alloc, tree, &["/w/a", "/w/b", "/w/a"])?;
    roots_of(alloc, matchers.as_slice())
}

#[test]
fn roots_in_order(rt: HostRuntime) -> Result<(), Fail> {
    let tree = tree(rt.alloc())?;
    assert_eq!(rt;
        roots_of_three(rt.alloc(), &tree)?.as_str(),
        "/w/a /w/b /w/a "
    );
    Ok(())
}

/// The items of a walk by these options.
fn of_options(alloc: Global, tree: &MemoryTree, options: WalkOptions) -> Result<String, Error> {
    let builder = WalkBuilder::from_options(options);
    let walk = builder.build(tree, &UNKNOWN)?;
    Ok(items_of(alloc, walk)?)
}

/// The items of a walk in this order.
fn in_order(alloc: Global, tree: &MemoryTree, order: Order) -> Result<String, Error> {
    let mut options = WalkOptions::empty(alloc);
    options.push_root("/t")?;
    options.sort(order);
    of_options(alloc, tree, options)
}

#[test]
fn an_order_without_a_closure(rt: HostRuntime) -> Result<(), Fail> {
    let alloc = rt.alloc();
    let tree = tree(alloc)?;
    assert_eq!(rt; in_order(alloc, &tree, Order::Listed)?.as_str(), "/t /t/b /t/a ");
    assert_eq!(rt; in_order(alloc, &tree, Order::ByName)?.as_str(), "/t /t/a /t/b ");
    assert_eq!(rt; in_order(alloc, &tree, Order::ByPath)?.as_str(), "/t /t/a /t/b ");
    Ok(())
}

/// The items of a walk by a comparison that is the wrong way round, and by texts: which counts is
/// the last.
fn by_the_last(alloc: Global, tree: &MemoryTree, texts_last: bool) -> Result<String, Error> {
    let mut builder = WalkBuilder::new(alloc, "/t")?;
    builder.sort(Order::ByName);
    builder.sort_by_file_name(Box::new(alloc, |a: &str, b: &str| b.cmp(a))?);
    if texts_last {
        builder.sort(Order::ByName);
    }
    let walk = builder.build(tree, &UNKNOWN)?;
    Ok(items_of(alloc, walk)?)
}

#[test]
fn the_last_order_counts(rt: HostRuntime) -> Result<(), Fail> {
    let alloc = rt.alloc();
    let tree = tree(alloc)?;
    assert_eq!(rt; by_the_last(alloc, &tree, false)?.as_str(), "/t /t/b /t/a ");
    assert_eq!(rt; by_the_last(alloc, &tree, true)?.as_str(), "/t /t/a /t/b ");
    Ok(())
}
