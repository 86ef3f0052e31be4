//! A guide whose host is asked.
use crate::stood::{guide, is_ignored, tree};
use crate::teller::arrive;
use ignore_files::MemoryTree;
use ignore_guide::{Guide, Place};
use std::alloc::Global;

/// A root that is begun by what a host tells of a tree, and how often it is asked.
fn root_of(tree: &MemoryTree, alloc: Global, guide: &mut Guide) -> anyhow::Result<(Place, u32)> {
    let step = guide.ask_root("/t")?;
    arrive(tree, alloc, guide, step)
}

/// The folder in it, where these names are told that it lists.
fn folder_of(
    tree: &MemoryTree,
    alloc: Global,
    guide: &mut Guide,
    root: Place,
    names: Option<&[&str]>,
) -> anyhow::Result<(Place, u32)> {
    let step = guide.ask_enter(root, "src", names)?;
    arrive(tree, alloc, guide, step)
}

#[test]
fn a_host_is_asked_for_what_decides(rt: HostRuntime) -> anyhow::Result<()> {
    let tree = tree(rt.alloc())?;
    let mut guide = guide(rt.alloc());
    let (root, _) = root_of(&tree, rt.alloc(), &mut guide)?;
    let (src, _) = folder_of(&tree, rt.alloc(), &mut guide, root, None)?;
    assert_eq!(rt; is_ignored(&guide, root, "keep.o", false), Some(true));
    assert_eq!(rt; is_ignored(&guide, src, "keep.o", false), Some(false));
    assert_eq!(rt; is_ignored(&guide, src, "a.o", false), Some(true));
    Ok(())
}

#[test]
fn once_for_each_file_that_is_listed(rt: HostRuntime) -> anyhow::Result<()> {
    let tree = tree(rt.alloc())?;
    let mut guide = guide(rt.alloc());
    let (root, _) = root_of(&tree, rt.alloc(), &mut guide)?;
    let (src, asked) = folder_of(
        &tree,
        rt.alloc(),
        &mut guide,
        root,
        Some(&[".gitignore", "a.c"]),
    )?;
    assert_eq!(rt; asked, 1);
    assert_eq!(rt; is_ignored(&guide, src, "keep.o", false), Some(false));
    Ok(())
}

#[test]
fn for_nothing_where_nothing_is_listed(rt: HostRuntime) -> anyhow::Result<()> {
    let tree = tree(rt.alloc())?;
    let mut guide = guide(rt.alloc());
    let (root, _) = root_of(&tree, rt.alloc(), &mut guide)?;
    let (_, asked) = folder_of(&tree, rt.alloc(), &mut guide, root, Some(&["a.c", "b.o"]))?;
    assert_eq!(rt; asked, 0);
    Ok(())
}
