//! The text of a file.

use ignore::files::{Contents, Files, MemoryTree, Refusal};
use ignore::{Error, Fault};
use std::alloc::Global;

/// The contents of a file as a text.
fn text_of<F: Files>(alloc: Global, files: &F, path: &str) -> Result<String, Error> {
    let contents: Contents = match files.contents(alloc, path) {
        Ok(contents) => contents,
        Err(Refusal::Fault(fault)) => return Err(Error::from(fault).with_path(alloc, path)?),
        Err(Refusal::Memory) => return Err(Error::Memory),
    };
    if let Some(fault) = contents.fault {
        return Err(Error::from(fault).with_path(alloc, path)?);
    }
    match String::from_utf8(contents.bytes.into_vec()) {
        Ok(text) => Ok(text),
        Err(_) => Err(Error::from(Fault::InvalidData).with_path(alloc, path)?),
    }
}

pub fn ask(rt: &HostRuntime, files: &MemoryTree) -> anyhow::Result<()> {
    for path in ["/project/src/main.c", "/project/lost.c"] {
        match text_of(rt.alloc(), files, path) {
            Ok(text) => println!(rt; "{path} has {} bytes of text", text.len())?,
            Err(error) => println!(rt; "{error}")?,
        }
    }
    Ok(())
}
