//! Trees in memory, and environments.
use ignore::files::{Env, MemoryTree, Name, TreeError};
use std::alloc::{AllocError, Global};

/// An environment of which nothing is known.
pub(crate) const UNKNOWN: Env = Env {
    current_dir: None,
    home: None,
    xdg_config_home: None,
    git_config_global: None,
    git_config_system: None,
};

fn name(alloc: Global, text: &str) -> Result<Option<Name>, AllocError> {
    Ok(Some(Name::new(String::from_str(alloc, text)?)))
}

/// An environment in which the global file is looked for in each of its places.
pub(crate) fn at_home(alloc: Global) -> Result<Env, AllocError> {
    Ok(Env {
        current_dir: name(alloc, "/")?,
        home: name(alloc, "/h")?,
        xdg_config_home: None,
        git_config_global: None,
        git_config_system: None,
    })
}

/// Adds a directory, whose path ends with a slash, or a file with these contents.
fn add(tree: &mut MemoryTree, path: &str, contents: &[u8]) -> Result<(), TreeError> {
    match path.strip_suffix('/') {
        Some(path) => tree.add_dir(path),
        None => tree.add_file(path, contents),
    }
}

/// A tree of directories, whose paths end with slashes, and of files with these contents.
pub(crate) fn tree_of(alloc: Global, things: &[(&str, &[u8])]) -> Result<MemoryTree, TreeError> {
    let mut tree = MemoryTree::new(alloc, "/")?;
    for (path, contents) in things {
        add(&mut tree, *path, *contents)?;
    }
    Ok(tree)
}
