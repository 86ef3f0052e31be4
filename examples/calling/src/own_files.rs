//! Files of a caller's own: the text in an editor, in place of what is on a disk.

use ignore::Fault;
use ignore::files::{
    Bytes, Contents, FileType, Files, Identity, Listed, Listing, Metadata, Name, Refusal,
};
use ignore::gitignore::Gitignore;
use std::alloc::Global;

/// A folder `/p` with one file of rules, whose text is this.
#[derive(Clone, Copy)]
struct Buffer<'b> {
    text: &'b str,
}

impl Files for Buffer<'_> {
    fn stat(&self, _alloc: Global, path: &str, _follow: bool) -> Result<Metadata, Refusal> {
        match path {
            "/p" => Ok(Metadata {
                file_type: FileType::Dir,
                len: 0,
            }),
            "/p/.ignore" => Ok(Metadata {
                file_type: FileType::File,
                len: self.text.len() as u64,
            }),
            _ => Err(Refusal::Fault(Fault::NotFound)),
        }
    }

    fn list(&self, alloc: Global, _path: &str) -> Result<Listing, Refusal> {
        let name = Name::from_str(alloc, ".ignore")?;
        let mut items = Vec::new(alloc);
        items.push(Listed::Entry {
            name,
            file_type: FileType::File,
        })?;
        Ok(Listing::new(items))
    }

    fn contents(&self, alloc: Global, _path: &str) -> Result<Contents, Refusal> {
        let mut bytes = Vec::new(alloc);
        bytes.extend_from_slice(self.text.as_bytes())?;
        Ok(Contents {
            bytes: Bytes::new(bytes),
            fault: None,
        })
    }

    fn canonical(&self, alloc: Global, path: &str) -> Result<Name, Refusal> {
        Ok(Name::from_str(alloc, path)?)
    }

    fn identity(&self, _: Global, _: &str, _: bool) -> Result<Option<Identity>, Refusal> {
        Ok(Some(Identity {
            device: 1,
            inode: 1,
        }))
    }
}

pub fn ask(rt: &HostRuntime) -> anyhow::Result<()> {
    let buffer = Buffer { text: "*.o\n" };
    let (rules, _) = Gitignore::new(rt.alloc(), &buffer, "/p/.ignore")?;
    println!(rt;
        "/p/a.o ignored, by a buffer: {}",
        rules.matched("/p/a.o", false)?.is_ignore()
    )?;
    Ok(())
}
