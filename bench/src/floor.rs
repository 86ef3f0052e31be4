//! What a list of folders costs by the kit alone.

use std::alloc::Global;
use std::fs;
use std::io::{self, BufWriter, Write};

/// Lists each of the folders in a file, one on a line, by the kit alone: writes the path of each of
/// its entries, in the order of their names, and asks the kind of each, as a walk has to. A folder
/// that can't be listed ends it.
pub(crate) fn floor(rt: &HostRuntime, folders: &str) -> io::Result<()> {
    let folders = fs::read_to_string(rt, folders)?;
    let mut out = BufWriter::with_capacity(rt.alloc(), 64 * 1024, rt.stdout())?;
    write_folders(rt, folders.as_str(), &mut out)
}

fn write_folders<W: Write>(rt: &HostRuntime, folders: &str, out: &mut W) -> io::Result<()> {
    for folder in folders.lines() {
        let names = names_in(rt, folder)?;
        write_names(folder, names.as_slice(), out)?;
    }
    out.flush()
}

/// The names in a folder, sorted, each with whether it is a folder.
fn names_in(rt: &HostRuntime, folder: &str) -> io::Result<Vec<(String, bool)>> {
    let mut names = Vec::new(rt.alloc());
    for entry in fs::read_dir(rt, folder)? {
        names.push(name_of(rt, entry)?)?;
    }
    names.sort()?;
    Ok(names)
}

fn name_of(
    rt: &HostRuntime,
    entry: io::Result<fs::DirEntry<HostRuntime, Global>>,
) -> io::Result<(String, bool)> {
    let entry = entry?;
    let is_dir = entry.file_type()?.is_dir();
    Ok((String::from_str(rt.alloc(), entry.file_name())?, is_dir))
}

/// Writes the path of each name, with a slash after a folder's.
fn write_names<W: Write>(folder: &str, names: &[(String, bool)], out: &mut W) -> io::Result<()> {
    for (name, is_dir) in names {
        let end = if *is_dir { "/\n" } else { "\n" };
        out.write_all(folder.as_bytes())?;
        out.write_all(b"/")?;
        out.write_all(name.as_bytes())?;
        out.write_all(end.as_bytes())?;
    }
    Ok(())
}
