//! The `.gitignore` of a folder on disk, and the global file.

use ignore::files::{DiskFiles, Env, Process};
use ignore::gitignore::Gitignore;
use std::env::VarError;
use std::io;
use std::path::PathBuf;

/// Asks the rules of a folder on disk, and says what is wrong with a line of them.
fn project(rt: &HostRuntime) -> anyhow::Result<()> {
    let files = DiskFiles::new(rt);
    let (rules, problem) = Gitignore::new(rt.alloc(), &files, "project/.gitignore")?;
    let ignored = rules.matched("project/build/a.o", false)?.is_ignore();
    println!(rt; "project/build/a.o {ignored}")?;
    if let Some(problem) = problem {
        println!(rt; "{problem}")?;
    }
    Ok(())
}

/// Asks the global file of a user who has none.
fn global(rt: &HostRuntime) -> anyhow::Result<()> {
    let files = DiskFiles::new(rt);
    let home = String::from_str(rt.alloc(), "/no/home")?;
    let system = String::from_str(rt.alloc(), "/no/gitconfig")?;
    let env = Env::empty()
        .with_current_dir(home.clone()?)
        .with_home(home)
        .with_git_config_system(system);
    let (rules, problem) = Gitignore::global(rt.alloc(), &files, &env)?;
    println!(rt;
        "global rules: {}, problems: {}",
        rules.len(),
        problem.is_some()
    )?;
    Ok(())
}

/// A process without variables, in a folder that was removed.
struct Bare;

impl Process for Bare {
    fn var(&self, _name: &str) -> Result<String, VarError> {
        Err(VarError::NotPresent)
    }

    fn current_dir(&self) -> io::Result<PathBuf> {
        Err(io::Error::from(io::ErrorKind::NotFound))
    }
}

/// Whether the environment of a process, that of a program or another, has a home directory.
fn has_home<P: Process>(process: &P) -> anyhow::Result<bool> {
    Ok(Env::of_process(process)?.home.is_some())
}

pub fn ask(rt: &HostRuntime) -> anyhow::Result<()> {
    project(rt)?;
    global(rt)?;
    println!(rt; "home known: {}", has_home(&Bare)?)?;
    Ok(())
}
