//! The first question of a matcher, with ample memory.
use crate::trees::tree_of;
use ignore_base::Error;
use ignore_dir::{IncrementalMatch, Outside, Settings};
use ignore_files::MemoryTree;
use ignore_query::IncrementalIgnore;
use std::alloc::Global;

/// The answer for a file below a root.
fn asked(
    alloc: Global,
    tree: &MemoryTree,
    root: &str,
    path: &str,
) -> Result<(IncrementalMatch, Option<Error>), Error> {
    let (settings, outside) = (Settings::standard(alloc), Outside::empty(alloc));
    let root = String::from_str(alloc, root)?;
    let mut matcher = IncrementalIgnore::new(settings, outside, root, None);
    matcher.matched_with_errors(tree, path, false)
}

/// A directory that is ignored, with rules of its own, of which one line is invalid.
const HIDDEN: &[&str] = &["/t", "/t/.ignore=.h/\n", "/t/.h", "/t/.h/.ignore=!a\n{\n"];

#[test]
fn rules_of_the_root_count(rt: HostRuntime) -> anyhow::Result<()> {
    let tree = tree_of(rt.alloc(), HIDDEN)?;
    let (answer, error) = asked(rt.alloc(), &tree, "/t/.h", "a")?;
    assert!(rt; answer.is_whitelist() && answer.is_within_depth() && error.is_some());
    Ok(())
}

#[test]
fn those_of_an_ignored_directory_do_not(rt: HostRuntime) -> anyhow::Result<()> {
    let tree = tree_of(rt.alloc(), HIDDEN)?;
    let (answer, error) = asked(rt.alloc(), &tree, "/t", ".h/a")?;
    assert!(rt; answer.is_ignore() && !answer.should_descend() && error.is_none());
    Ok(())
}
