//! Trees in memory, written as lines.
use ignore_files::{MemoryTree, TreeError};
use std::alloc::Global;

/// A tree of lines: a path alone is a directory, `PATH=CONTENTS` a file, `PATH>TARGET` a link.
pub fn tree_of(alloc: Global, lines: &[&str]) -> anyhow::Result<MemoryTree> {
    let mut tree = MemoryTree::new(alloc, "/")?;
    for line in lines {
        add_line(&mut tree, *line)?;
    }
    Ok(tree)
}

fn add_line(tree: &mut MemoryTree, line: &str) -> Result<(), TreeError> {
    if let Some((path, contents)) = line.split_once('=') {
        tree.add_file(path, contents.as_bytes())
    } else if let Some((path, target)) = line.split_once('>') {
        tree.add_link(path, target)
    } else {
        tree.add_dir(line)
    }
}
