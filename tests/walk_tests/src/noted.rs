//! A tree in memory that notes some of its calls.

use ignore_files::{Contents, Files, Identity, Listing, MemoryTree, Metadata, Name, Refusal};
use std::alloc::Global;
use std::cell::Cell;

/// A tree in memory that counts the followed `stat`s of what is in `/t`, notes whether a directory
/// was listed, and says that it is whole or doesn't.
#[derive(Drop)]
pub(crate) struct Noted<'t> {
    tree: &'t MemoryTree,
    dir: &'t str,
    is_whole: bool,
    /// Whether the directory was listed.
    pub(crate) listed: Cell<bool>,
    /// How many of the `stat`s there were.
    pub(crate) asked: Cell<u32>,
}

impl<'t> Noted<'t> {
    /// A tree that doesn't say it is whole, and whether this directory is listed.
    pub(crate) fn listing(tree: &'t MemoryTree, dir: &'t str) -> Noted<'t> {
        Noted {
            tree,
            dir,
            is_whole: false,
            listed: Cell::new(false),
            asked: Cell::new(0),
        }
    }

    /// A tree that says it is whole, or doesn't.
    pub(crate) fn asking(tree: &'t MemoryTree, is_whole: bool) -> Noted<'t> {
        Noted {
            tree,
            dir: "/t",
            is_whole,
            listed: Cell::new(false),
            asked: Cell::new(0),
        }
    }
}

impl Files for Noted<'_> {
    ghost stat_gives = { λ files path follow r. ⟦<MemoryTree as Files>⟧.stat_gives files.tree.now path follow r };

    ghost list_gives = { λ files path r. ⟦<MemoryTree as Files>⟧.list_gives files.tree.now path r };

    fn stat(&self, alloc: Global, path: &str, follow: bool) -> Result<Metadata, Refusal> {
        if follow && path.starts_with("/t/") {
            self.asked.set(self.asked.get().saturating_add(1));
        }
        self.tree.stat(alloc, path, follow)
    }

    fn list(&self, alloc: Global, path: &str) -> Result<Listing, Refusal> {
        if path == self.dir {
            self.listed.set(true);
        }
        self.tree.list(alloc, path)
    }

    fn contents(&self, alloc: Global, path: &str) -> Result<Contents, Refusal> {
        self.tree.contents(alloc, path)
    }

    fn canonical(&self, alloc: Global, path: &str) -> Result<Name, Refusal> {
        self.tree.canonical(alloc, path)
    }

    fn identity(
        &self,
        alloc: Global,
        path: &str,
        follow: bool,
    ) -> Result<Option<Identity>, Refusal> {
        self.tree.identity(alloc, path, follow)
    }

    fn listings_are_whole(&self) -> bool {
        self.is_whole && self.tree.listings_are_whole()
    }
}
