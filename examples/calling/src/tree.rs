//! A tree in memory, over which the other examples ask.

use ignore::files::{MemoryTree, TreeError};
use std::alloc::Global;

/// A project with two files of rules.
pub fn project(alloc: Global) -> Result<MemoryTree, TreeError> {
    let mut tree = MemoryTree::new(alloc, "/")?;
    for dir in ["/project", "/project/.git", "/project/src"] {
        tree.add_dir(dir)?;
    }
    tree.add_file("/project/.gitignore", b"*.o\n!keep.o\ntmp/\n")?;
    tree.add_file("/project/src/.ignore", b"gen.c\n")?;
    for file in ["/project/a.o", "/project/src/main.c", "/project/src/gen.c"] {
        tree.add_file(file, b"int main;\n")?;
    }
    Ok(tree)
}
