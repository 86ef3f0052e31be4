//! The examples of docs/CALLING.md, which has them word for word. Each is a function that prints what
//! it finds, and this program calls them in turn.
#![tactic(auto)]

mod choose;
mod disk;
mod every;
mod globs;
mod guide;
mod input;
mod listed;
mod matcher;
mod own_files;
mod reasons;
mod rules;
mod search;
mod survey;
mod table;
mod told;
mod tree;
mod walk;

use ignore::files::Env;

fn main(rt: HostRuntime) -> anyhow::Result<()> {
    input::ask(&rt)?;
    disk::ask(&rt)?;
    rules::ask(&rt)?;
    choose::ask(&rt)?;
    globs::ask(&rt)?;
    every::ask(&rt)?;
    own_files::ask(&rt)?;
    table::ask(&rt)?;
    let (files, env) = (tree::project(rt.alloc())?, Env::empty());
    matcher::ask(&rt, &files, &env)?;
    reasons::ask(&rt, &files, &env)?;
    survey::ask(&rt, &files, &env)?;
    walk::ask(&rt, &files, &env)?;
    listed::ask(&rt, &files, &env)?;
    search::ask(&rt, &files)?;
    guide::ask(&rt, &files, &env)?;
    told::ask(&rt, &env)
}
