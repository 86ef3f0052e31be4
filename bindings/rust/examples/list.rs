//! Lists what a walk of a folder yields: `list FOLDER`. What is wrong goes to standard error.
use ignore_proved::{Error, WalkBuilder};
use std::io::{self, BufWriter, Write};
use std::os::unix::ffi::OsStrExt;

fn main() -> Result<(), Error> {
    let root = std::env::args_os().nth(1).expect("usage: list FOLDER");
    let mut out = BufWriter::new(io::stdout().lock());
    for entry in WalkBuilder::new(root)?.hidden(true).build()? {
        match entry {
            Ok(entry) => {
                out.write_all(entry.path().as_os_str().as_bytes())?;
                out.write_all(b"\n")?;
            }
            Err(error) => eprintln!("{error}"),
        }
    }
    Ok(out.flush()?)
}
