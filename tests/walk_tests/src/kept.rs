//! A matcher asks nothing of the files again for directories that it keeps.
use crate::trees::tree_of;
use answers::Refusing;
use ignore_dir::{IncrementalMatch, Outside, Settings};
use ignore_files::{MemoryTree, Refusal};
use ignore_query::IncrementalIgnore;
use std::alloc::Global;
use std::cell::Cell;

/// A matcher of `/t` that was asked about a file in `p/q`, of which `p` has rules.
fn asked_once(alloc: Global) -> anyhow::Result<IncrementalIgnore> {
    let root = String::from_str(alloc, "/t")?;
    let outside = Outside::empty(alloc);
    let mut matcher = IncrementalIgnore::new(Settings::standard(alloc), outside, root, None);
    ask_first(alloc, &mut matcher)?;
    Ok(matcher)
}

fn ask_first(alloc: Global, matcher: &mut IncrementalIgnore) -> anyhow::Result<()> {
    let tree = tree_of(alloc, &["/t", "/t/p", "/t/p/.ignore=bar\n", "/t/p/q"])?;
    let _ = matcher.matched(&tree, "p/q/foo", false)?;
    Ok(())
}

/// The answer for another path where the first call is out of memory, and whether it is made.
fn then(alloc: Global, path: &str) -> anyhow::Result<(Option<IncrementalMatch>, bool)> {
    let tree = MemoryTree::new(alloc, "/")?;
    let files = Refusing {
        tree: &tree,
        refusal: Refusal::Memory,
        turn: Cell::new(1),
    };
    let answer = asked_again(alloc, &files, path)?;
    Ok((answer, files.turn.get() == 0))
}

fn asked_again(
    alloc: Global,
    files: &Refusing<'_>,
    path: &str,
) -> anyhow::Result<Option<IncrementalMatch>> {
    let mut matcher = asked_once(alloc)?;
    Ok(matcher.matched(files, path, false).ok())
}

#[test]
fn a_file_beside_the_first_takes_no_call(rt: HostRuntime) -> anyhow::Result<()> {
    let (answer, made) = then(rt.alloc(), "p/q/bar")?;
    assert!(rt; answer.is_some_and(|answer| answer.is_ignore()));
    assert!(rt; !made);
    Ok(())
}

#[test]
fn a_file_in_another_directory_takes_some(rt: HostRuntime) -> anyhow::Result<()> {
    let (answer, made) = then(rt.alloc(), "p/r/bar")?;
    assert!(rt; answer.is_none() && made);
    Ok(())
}
