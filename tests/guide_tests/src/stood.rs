//! A guide in two directories of a tree in memory, with ample memory.
use ignore_dir::{Outside, Settings};
use ignore_files::MemoryTree;
use ignore_guide::{Entry, Guide, Place};
use std::alloc::Global;

/// A guide in a root and in a folder of it.
#[derive(Drop)]
pub(crate) struct Stood {
    pub(crate) guide: Guide,
    pub(crate) root: Place,
    pub(crate) src: Place,
}

fn dirs(alloc: Global) -> anyhow::Result<MemoryTree> {
    let mut tree = MemoryTree::new(alloc, "/")?;
    for dir in ["/t", "/t/.git", "/t/src"] {
        tree.add_dir(dir)?;
    }
    Ok(tree)
}

/// A repository with a rule, and a folder with others.
pub(crate) fn tree(alloc: Global) -> anyhow::Result<MemoryTree> {
    let mut tree = dirs(alloc)?;
    for (path, rules) in [
        ("/t/.gitignore", "*.o\n"),
        ("/t/src/.gitignore", "!keep.o\nlogs/\n"),
    ] {
        tree.add_file(path, rules.as_bytes())?;
    }
    Ok(tree)
}

pub(crate) fn guide(alloc: Global) -> Guide {
    Guide::new(alloc, Settings::standard(alloc), Outside::empty(alloc))
}

/// The guide in `/t` and `/t/src`.
pub(crate) fn stand(alloc: Global, tree: &MemoryTree) -> anyhow::Result<Stood> {
    let mut guide = guide(alloc);
    let root = guide.root(tree, "/t")?.place;
    let src = guide.enter(tree, root, "src")?.place;
    Ok(Stood { guide, root, src })
}

/// Whether an entry of this name is ignored in the directory of a place, if there is an answer.
pub(crate) fn is_ignored(guide: &Guide, place: Place, name: &str, is_dir: bool) -> Option<bool> {
    let entry = Entry {
        name,
        is_dir,
        size: None,
    };
    match guide.decide(place, &entry) {
        Ok(found) => Some(found.is_ignore()),
        Err(_) => None,
    }
}

#[test]
fn the_rules_of_a_root_count_in_its_folders(rt: HostRuntime) -> anyhow::Result<()> {
    let tree = tree(rt.alloc())?;
    let stood = stand(rt.alloc(), &tree)?;
    assert_eq!(rt;
        is_ignored(&stood.guide, stood.root, "a.o", false),
        Some(true)
    );
    assert_eq!(rt;
        is_ignored(&stood.guide, stood.src, "a.o", false),
        Some(true)
    );
    assert_eq!(rt;
        is_ignored(&stood.guide, stood.src, "a.c", false),
        Some(false)
    );
    Ok(())
}

#[test]
fn the_rules_of_a_folder_count_there(rt: HostRuntime) -> anyhow::Result<()> {
    let tree = tree(rt.alloc())?;
    let stood = stand(rt.alloc(), &tree)?;
    assert_eq!(rt;
        is_ignored(&stood.guide, stood.root, "keep.o", false),
        Some(true)
    );
    assert_eq!(rt;
        is_ignored(&stood.guide, stood.src, "keep.o", false),
        Some(false)
    );
    assert_eq!(rt;
        is_ignored(&stood.guide, stood.src, "logs", true),
        Some(true)
    );
    assert_eq!(rt;
        is_ignored(&stood.guide, stood.src, "logs", false),
        Some(false)
    );
    Ok(())
}

#[test]
fn what_is_no_name_has_no_answer(rt: HostRuntime) -> anyhow::Result<()> {
    let tree = tree(rt.alloc())?;
    let stood = stand(rt.alloc(), &tree)?;
    for name in ["", ".", "..", "a/b"] {
        assert_eq!(rt; is_ignored(&stood.guide, stood.src, name, true), None);
    }
    Ok(())
}
