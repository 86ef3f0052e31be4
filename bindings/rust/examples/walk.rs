//! Lists what a walk of a folder yields, by options of `ig`: `walk [OPTION].. FOLDER`. What is wrong
//! goes to standard error.
use ignore_proved::{Error, WalkBuilder};
use std::env;
use std::io::{self, BufWriter, Write};
use std::os::unix::ffi::OsStrExt;

fn main() -> Result<(), Error> {
    let mut words: Vec<_> = env::args_os().skip(1).collect();
    let root = words.pop().expect("usage: walk [OPTION].. FOLDER");
    let mut builder = WalkBuilder::new(root)?;
    let mut words = words.iter().map(|it| it.to_str().expect("an option"));
    while let Some(word) = words.next() {
        let mut number = || words.next().and_then(|it| it.parse().ok());
        match word {
            "-H" => builder.hidden(false),
            "-d" => builder.max_depth(number().map(|depth| depth as usize)),
            "--max-filesize" => builder.max_filesize(number()),
            "--no-require-git" => builder.require_git(false),
            "--no-ignore-dot" => builder.ignore(false),
            "--no-ignore-parent" => builder.parents(false),
            "--no-ignore-vcs" => builder
                .git_ignore(false)
                .git_global(false)
                .git_exclude(false),
            "--ignore-name" => builder.add_custom_ignore_filename(words.next().unwrap_or("")),
            word => panic!("{word} is no option"),
        };
    }
    let mut out = BufWriter::new(io::stdout().lock());
    for entry in builder.build()? {
        match entry {
            Ok(entry) => {
                out.write_all(entry.path().as_os_str().as_bytes())?;
                out.write_all(b"\n")?;
            }
            Err(error) => eprintln!("{error}"),
        }
    }
    Ok(out.flush()?)
}
