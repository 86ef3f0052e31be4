//! A host that tells which names a directory lists.
use crate::stood::is_ignored;
use crate::teller::arrive;
use ignore_dir::{Outside, Settings};
use ignore_files::MemoryTree;
use ignore_guide::{Guide, Place};
use std::alloc::Global;

/// A folder with a repository, whose exclude file has a rule, and one with a custom file.
fn tree(alloc: Global) -> anyhow::Result<MemoryTree> {
    let mut tree = MemoryTree::new(alloc, "/")?;
    for dir in ["/t", "/t/in", "/t/in/.git", "/t/in/.git/info", "/t/out"] {
        tree.add_dir(dir)?;
    }
    for (path, rules) in [
        ("/t/in/.git/info/exclude", "*.x\n"),
        ("/t/in/.gitignore", "*.o\n"),
        ("/t/out/.rules", "*.r\n"),
    ] {
        tree.add_file(path, rules.as_bytes())?;
    }
    Ok(tree)
}

/// A guide that reads a custom file, in a folder of the tree, and how often its host was asked there.
fn entered(
    alloc: Global,
    folder: &str,
    names: Option<&[&str]>,
) -> anyhow::Result<(Guide, Place, u32)> {
    let tree = tree(alloc)?;
    let mut settings = Settings::standard(alloc);
    settings.custom.push(".rules")?;
    let mut guide = Guide::new(alloc, settings, Outside::empty(alloc));
    let step = guide.ask_root("/t")?;
    let (root, _) = arrive(&tree, alloc, &mut guide, step)?;
    let step = guide.ask_enter(root, folder, names)?;
    let (place, asked) = arrive(&tree, alloc, &mut guide, step)?;
    Ok((guide, place, asked))
}

#[test]
fn a_repository_that_is_listed_counts(rt: HostRuntime) -> anyhow::Result<()> {
    let (guide, place, _) = entered(rt.alloc(), "in", Some(&["a.x", ".git", ".gitignore"]))?;
    assert_eq!(rt; is_ignored(&guide, place, "a.x", false), Some(true));
    assert_eq!(rt; is_ignored(&guide, place, "a.o", false), Some(true));
    assert_eq!(rt; is_ignored(&guide, place, "a.r", false), Some(false));
    Ok(())
}

#[test]
fn one_of_which_no_names_are_told_counts(rt: HostRuntime) -> anyhow::Result<()> {
    let (guide, place, _) = entered(rt.alloc(), "in", None)?;
    assert_eq!(rt; is_ignored(&guide, place, "a.x", false), Some(true));
    assert_eq!(rt; is_ignored(&guide, place, "a.o", false), Some(true));
    Ok(())
}

#[test]
fn a_custom_file_is_asked_for_alone(rt: HostRuntime) -> anyhow::Result<()> {
    let (guide, place, asked) = entered(rt.alloc(), "out", Some(&[".rules", "a.r"]))?;
    assert_eq!(rt; asked, 1);
    assert_eq!(rt; is_ignored(&guide, place, "a.r", false), Some(true));
    assert_eq!(rt; is_ignored(&guide, place, "a.x", false), Some(false));
    Ok(())
}

#[test]
fn a_name_in_another_case_may_be_the_file(rt: HostRuntime) -> anyhow::Result<()> {
    let (guide, place, asked) = entered(rt.alloc(), "out", Some(&[".GitIgnore", "a.r"]))?;
    assert_eq!(rt; asked, 1);
    assert_eq!(rt; is_ignored(&guide, place, "a.r", false), Some(false));
    Ok(())
}
