//! Walks.

use ignore::files::{Env, MemoryTree};
use ignore::{DirEntry, Order, Walk, WalkBuilder, WalkOptions, collect_walk};
use std::alloc::Global;

/// Lists a folder, by name.
fn list(rt: &HostRuntime, files: &MemoryTree, env: &Env) -> anyhow::Result<()> {
    let alloc = rt.alloc();
    let mut builder = WalkBuilder::new(alloc, "/project")?;
    builder.sort(Order::ByName);
    for entry in collect_walk(&builder, files, env)? {
        match entry {
            Ok(entry) => println!(rt; "{}", entry.path())?,
            Err(error) => eprintln!(rt; "{error}")?,
        }
    }
    Ok(())
}

/// Options, which functions may make and return.
fn options(alloc: Global) -> Result<WalkOptions, ignore::Error> {
    let mut options = WalkOptions::empty(alloc);
    options.push_root("/project")?;
    options.hidden(false).max_filesize(Some(1_000_000));
    Ok(options)
}

/// How many entries a filter keeps.
fn filtered(alloc: Global, files: &MemoryTree, env: &Env) -> anyhow::Result<usize> {
    let mut builder = WalkBuilder::from_options(options(alloc)?);
    builder.hidden(false).follow_links(true).max_depth(Some(8));
    builder.filter_entry(Box::new(alloc, |entry: &DirEntry| entry.file_name() != ".git")?);
    Ok(collect_walk(&builder, files, env)?.len())
}

/// The first entry of a walk that reads as it goes, by the settings at first.
fn first(rt: &HostRuntime, files: &MemoryTree, env: &Env) -> anyhow::Result<()> {
    let mut walk = Walk::new(rt.alloc(), files, env, "/project/src")?;
    if let Some(entry) = walk.next() {
        println!(rt; "first: {}", entry?.path())?;
    }
    Ok(())
}

pub fn ask(rt: &HostRuntime, files: &MemoryTree, env: &Env) -> anyhow::Result<()> {
    list(rt, files, env)?;
    println!(rt; "filtered: {}", filtered(rt.alloc(), files, env)?)?;
    first(rt, files, env)
}
