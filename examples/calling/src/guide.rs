//! A walk of one's own: the host lists directories, and a guide decides on their entries.

use ignore::WalkOptions;
use ignore::files::{Env, MemoryTree};
use ignore::guide::{Arrived, Entry, Guide, GuideError, Place};
use std::alloc::Global;

/// Enters a folder, and decides on what it lists.
fn is_ignored(
    alloc: Global,
    guide: &mut Guide,
    files: &MemoryTree,
    name: &str,
) -> Result<bool, GuideError> {
    let root = guide.root(files, "/project")?.place;
    let Arrived {
        place: src,
        error: _,
    } = guide.enter(files, root, "src")?;
    let entry = Entry {
        name,
        is_dir: false,
        size: None,
    };
    let ignored = guide.decide(src, &entry)?.is_ignore(); // should_descend, is_within_depth
    guide.leave(src)?;
    guide.leave(root)?;
    Ok(ignored)
}

/// A whole listing at once.
fn of_listing(guide: &Guide, place: Place, names: [&str; 2]) -> Result<usize, GuideError> {
    let listed = names.map(|name| Entry {
        name,
        is_dir: false,
        size: None,
    });
    let answers = guide.decide_all(place, &listed)?;
    Ok(answers.iter().filter(|answer| answer.is_ignore()).count())
}

pub fn ask(rt: &HostRuntime, files: &MemoryTree, env: &Env) -> anyhow::Result<()> {
    let options = WalkOptions::empty(rt.alloc());
    let mut guide = options.guide(files, env)?;
    for name in ["gen.c", "main.c"] {
        println!(rt;
            "{name} ignored: {}",
            is_ignored(rt.alloc(), &mut guide, files, name)?
        )?;
    }
    let root = guide.root(files, "/project")?.place;
    println!(rt;
        "of two ignored: {}",
        of_listing(&guide, root, ["b.o", "b.c"])?
    )?;
    Ok(())
}
