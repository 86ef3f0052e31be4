//! A host that tells what a tree in memory has.
use ignore_base::Fault;
use ignore_files::internal::answered;
use ignore_files::{Contents, FileType, Files, MemoryTree, Name};
use ignore_guide::{Given, Guide, Place, Step, Waiting};
use std::alloc::Global;

/// What a tree has at a path.
#[derive(Drop)]
struct Found {
    kind: Option<FileType>,
    read: Result<Contents, Fault>,
    path: Result<Name, Fault>,
}

fn kind_at(alloc: Global, tree: &MemoryTree, path: &str) -> anyhow::Result<Option<FileType>> {
    match answered(tree.stat(alloc, path, true))? {
        Ok(metadata) => Ok(Some(metadata.file_type)),
        Err(_) => Ok(None),
    }
}

fn look_up(alloc: Global, tree: &MemoryTree, path: &str) -> anyhow::Result<Found> {
    let kind = kind_at(alloc, tree, path)?;
    let read = answered(tree.contents(alloc, path))?;
    let path = answered(tree.canonical(alloc, path))?;
    Ok(Found { kind, read, path })
}

fn bytes_of(read: &Result<Contents, Fault>) -> Result<&[u8], Fault> {
    match read {
        Ok(contents) => Ok(contents.bytes.as_slice()),
        Err(fault) => Err(*fault),
    }
}

fn text_of(path: &Result<Name, Fault>) -> Result<&str, Fault> {
    match path {
        Ok(name) => Ok(name.as_str()),
        Err(fault) => Err(*fault),
    }
}

/// Tells what the tree has at the path that is asked about.
fn told(
    tree: &MemoryTree,
    alloc: Global,
    guide: &mut Guide,
    waiting: Waiting,
) -> anyhow::Result<Step> {
    let found = look_up(alloc, tree, waiting.question.path.as_str())?;
    let given = Given {
        kind: found.kind,
        bytes: bytes_of(&found.read),
        fault: None,
        path: text_of(&found.path),
    };
    Ok(guide.tell(waiting, &given)?)
}

/// Where a call arrives, and after how many questions.
pub(crate) fn arrive(
    tree: &MemoryTree,
    alloc: Global,
    guide: &mut Guide,
    step: Step,
) -> anyhow::Result<(Place, u32)> {
    let mut step = step;
    for asked in 0..100 {
        match step {
            Step::Arrived(arrived) => return Ok((arrived.place, asked)),
            Step::Wants(waiting) => step = told(tree, alloc, guide, waiting)?,
        }
    }
    Err(anyhow::anyhow!("asked without end"))
}
