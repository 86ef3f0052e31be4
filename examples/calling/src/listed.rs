//! What an entry of a walk says of itself.

use ignore::files::{Env, FileType, MemoryTree, Metadata};
use ignore::{DirEntry, Item, WalkBuilder, collect_walk};

/// Says what an entry is.
fn entry(rt: &HostRuntime, files: &MemoryTree, entry: &DirEntry) -> anyhow::Result<()> {
    let kind = match entry.file_type() {
        Some(FileType::File) => "file",
        Some(FileType::Dir) => "folder",
        _ => "other",
    };
    let metadata: Metadata = entry.metadata(files)?;
    println!(rt;
        "{kind} {} at depth {}, {} bytes",
        entry.file_name(),
        entry.depth(),
        metadata.len()
    )?;
    Ok(())
}

/// Says what an item is: an entry, or an error in the place of one.
fn item(rt: &HostRuntime, files: &MemoryTree, item: Item) -> anyhow::Result<()> {
    match item {
        Ok(found) => entry(rt, files, &found),
        Err(error) => {
            println!(rt; "{error}, as a fault: {:?}", error.io_error())?;
            Ok(())
        }
    }
}

pub fn ask(rt: &HostRuntime, files: &MemoryTree, env: &Env) -> anyhow::Result<()> {
    let mut builder = WalkBuilder::new(rt.alloc(), "/project/src")?;
    builder.add("/lost")?;
    for found in collect_walk(&builder, files, env)? {
        item(rt, files, found)?;
    }
    Ok(())
}
