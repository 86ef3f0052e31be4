//! What one directory holds, and what is above a root, with ample memory.
use crate::trees::tree_of;
use ignore_base::Error;
use ignore_dir::above::{Above, load_above};
use ignore_dir::load::load_directory;
use ignore_dir::{Dir, Ground, Outside, Settings};
use ignore_files::MemoryTree;
use std::alloc::Global;

/// How many rules each list of a directory has, `m` where it has a mark, and its error.
fn loaded(alloc: Global, lines: &[&str], dir: &str) -> anyhow::Result<String> {
    let tree = tree_of(alloc, lines)?;
    loaded_in(alloc, &tree, dir)
}

fn loaded_in(alloc: Global, tree: &MemoryTree, dir: &str) -> anyhow::Result<String> {
    let settings = Settings::standard(alloc);
    let outside = Outside::empty(alloc);
    let ground = Ground {
        alloc,
        files: tree,
        settings: &settings,
        outside: &outside,
    };
    let (loaded, error) = load_directory(&ground, dir)?;
    with_error(alloc, &loaded, &error)
}

fn shown(alloc: Global, dir: &Dir) -> anyhow::Result<String> {
    let (ignore, gitignore) = (dir.ignore.len(), dir.gitignore.len());
    let (exclude, mark) = (dir.exclude.len(), if dir.mark { " m" } else { "" });
    Ok(format!(in alloc; "{ignore} {gitignore} {exclude}{mark}")?)
}

fn with_error(alloc: Global, dir: &Dir, error: &Option<Error>) -> anyhow::Result<String> {
    let text = shown(alloc, dir)?;
    match error {
        None => Ok(text),
        Some(error) => Ok(format!(in alloc; "{text}: {error}")?),
    }
}

#[test]
fn a_repository(rt: HostRuntime) -> anyhow::Result<()> {
    let text = loaded(
        rt.alloc(),
        &[
            "/t",
            "/t/.git",
            "/t/.git/info",
            "/t/.gitignore=!foo\n",
            "/t/.ignore=!bar\n{\n",
            "/t/.git/info/exclude=foo\nbar\nbaz\n",
        ],
        "/t",
    )?;
    assert_eq!(rt;
        text.as_str(),
        "1 1 3 m: /t/.ignore: line 2: error parsing glob '{': unclosed alternates"
    );
    Ok(())
}

#[test]
fn a_worktree_with_a_relative_folder(rt: HostRuntime) -> anyhow::Result<()> {
    let text = loaded(
        rt.alloc(),
        &[
            "/p",
            "/p/.git=gitdir: /g/.git/worktrees/w\n",
            "/g",
            "/g/.git",
            "/g/.git/info",
            "/g/.git/worktrees",
            "/g/.git/worktrees/w",
            "/g/.git/worktrees/w/commondir=../..\n",
            "/g/.git/info/exclude=z\n",
        ],
        "/p",
    )?;
    assert_eq!(rt; text.as_str(), "0 0 1 m");
    Ok(())
}

/// The text of what is above `/w/a/d`, and then, for each directory, its offset and what it holds.
fn above(alloc: Global, settings: &Settings, lines: &[&str]) -> anyhow::Result<String> {
    let tree = tree_of(alloc, lines)?;
    let outside = Outside::empty(alloc);
    let ground = Ground {
        alloc,
        files: &tree,
        settings,
        outside: &outside,
    };
    let above = load_above(&ground, "/w/a/d")?;
    shown_above(alloc, &above)
}

fn shown_above(alloc: Global, above: &Above) -> anyhow::Result<String> {
    let mut text = String::from_str(alloc, above.base.as_str())?;
    for placed in above.dirs.as_slice() {
        let dir = shown(alloc, &placed.dir)?;
        let line = format!(in alloc; "; {}: {dir}", placed.offset)?;
        text.push_str(line.as_str())?;
    }
    Ok(text)
}

/// A repository with a directory in it that has rules, too.
const REPOSITORY: &[&str] = &[
    "/w",
    "/w/.git",
    "/w/.gitignore=foo\nbar\n",
    "/w/a",
    "/w/a/.ignore=baz\n",
    "/w/a/d",
];

#[test]
fn above_a_root(rt: HostRuntime) -> anyhow::Result<()> {
    let alloc = rt.alloc();
    let text = above(alloc, &Settings::standard(alloc), REPOSITORY)?;
    assert_eq!(rt; text.as_str(), "/w/a/d/; 1: 0 0 0; 3: 0 2 0 m; 5: 1 0 0");
    Ok(())
}

#[test]
fn above_a_root_with_parents_off(rt: HostRuntime) -> anyhow::Result<()> {
    let alloc = rt.alloc();
    let mut settings = Settings::standard(alloc);
    settings.parents = false;
    let text = above(alloc, &settings, REPOSITORY)?;
    assert_eq!(rt; text.as_str(), "/w/a/d/; 1: 0 0 0; 3: 0 0 0 m; 5: 0 0 0");
    Ok(())
}
