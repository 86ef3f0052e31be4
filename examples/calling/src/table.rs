//! A disk by a table, for tests of what reads one.

use ignore::files::{
    Bytes, DiskFiles, FileType, Identity, Machine, Name, Row, RowEntry, RowKind, TableMachine,
};
use ignore::gitignore::Gitignore;
use std::alloc::Global;
use std::collections::BTreeMap;

/// A table of one folder with a file of rules.
fn table(alloc: Global) -> anyhow::Result<TableMachine> {
    let mut bytes = Vec::new(alloc);
    bytes.extend_from_slice(b"*.o\n")?;
    let mut entries = Vec::new(alloc);
    let name = Name::from_str(alloc, ".ignore")?;
    entries.push(RowEntry {
        name,
        file_type: FileType::File,
    })?;
    let mut rows = BTreeMap::new(alloc);
    insert(alloc, &mut rows, "/d", RowKind::Dir(entries))?;
    insert(
        alloc,
        &mut rows,
        "/d/.ignore",
        RowKind::File(Bytes::new(bytes)),
    )?;
    insert(
        alloc,
        &mut rows,
        "/l",
        RowKind::Link(Name::from_str(alloc, "/d/.ignore")?),
    )?;
    Ok(TableMachine::new(alloc, rows))
}

/// Adds a row.
fn insert(
    alloc: Global,
    rows: &mut BTreeMap<String, Row>,
    path: &str,
    kind: RowKind,
) -> anyhow::Result<()> {
    let identity = Identity {
        device: 1,
        inode: rows.len() as u64,
    };
    rows.insert(String::from_str(alloc, path)?, Row { kind, identity })?;
    Ok(())
}

/// How many rules the file at a path of a machine has.
fn rules_at<M: Machine>(alloc: Global, machine: &M, path: &str) -> anyhow::Result<usize> {
    let files = DiskFiles::new(machine);
    let (rules, _) = Gitignore::new(alloc, &files, path)?;
    Ok(rules.len())
}

pub fn ask(rt: &HostRuntime) -> anyhow::Result<()> {
    let table = table(rt.alloc())?;
    for path in ["/d/.ignore", "/l", "/lost"] {
        println!(rt; "{path} has {} rules", rules_at(rt.alloc(), &table, path)?)?;
    }
    Ok(())
}
