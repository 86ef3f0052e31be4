//! What asks rules alone.
use crate::trees::tree_of;
use ignore::Error;
use ignore::files::{Bytes, FileType, Identity, Name, Row, RowEntry, RowKind, TableMachine};
use ignore::gitignore::{Gitignore, GitignoreBuilder};
use ignore::overrides::{Override, OverrideBuilder};
use ignore::types::{Types, TypesBuilder};
use std::alloc::{AllocError, Global};
use std::collections::BTreeMap;
use std::test::Fail;
use uses::buffer::rules_of_buffer;
use uses::checker::is_ignored;
use uses::disk::is_ignored_on_disk;
use uses::global::is_ignored_globally;
use uses::lines::add_if_valid;
use uses::linter::is_linted;
use uses::packer::packed;
use uses::reason::{deciding_file, deciding_line};

/// A tree with one file of rules.
const RULES: &[(&str, &[u8])] = &[("/p/", b""), ("/p/.gitignore", b"*.o\n!keep.o\n")];

fn ignored(alloc: Global, path: &str) -> Result<bool, Fail> {
    let tree = tree_of(alloc, RULES)?;
    let (ignored, problem) = is_ignored(alloc, &tree, "/p/.gitignore", path)?;
    Ok(ignored && problem.is_none())
}

#[test]
fn a_checker_asks_a_file(rt: HostRuntime) -> Result<(), Fail> {
    assert!(rt; ignored(rt.alloc(), "/p/a.o")?);
    Ok(())
}

/// The rules of two lines, below `p`.
fn rules(alloc: Global) -> Result<Gitignore, Error> {
    let (rules, _) = rules_of_buffer(alloc, "p/.gitignore", "build/\n*.o\n")?;
    Ok(rules)
}

#[test]
fn an_editor_reports_the_line(rt: HostRuntime) -> Result<(), Fail> {
    let rules = rules(rt.alloc())?;
    assert_eq!(rt; deciding_line(&rules, "p/a.o", false)?, Some("*.o"));
    Ok(())
}

#[test]
fn an_editor_reports_the_file(rt: HostRuntime) -> Result<(), Fail> {
    let rules = rules(rt.alloc())?;
    assert_eq!(rt;
        deciding_file(&rules, "p/a.o", false)?,
        Some("p/.gitignore")
    );
    Ok(())
}

#[test]
fn a_packer_leaves_out_what_is_built(rt: HostRuntime) -> Result<(), Fail> {
    let rules = rules(rt.alloc())?;
    let paths = ["p/a.c", "p/build/x", "p/a.o", "p/b.c"];
    let all = packed(rt.alloc(), &rules, &paths)?;
    assert_eq!(rt; all.as_slice(), ["p/a.c", "p/b.c"].as_slice());
    Ok(())
}

/// The default types, of which `rust` is selected.
fn rust(alloc: Global) -> Result<Types, Error> {
    let mut types = TypesBuilder::new(alloc);
    types.add_defaults()?;
    types.select("rust")?;
    types.build()
}

/// The globs of a command line that denies what is generated.
fn not_generated(alloc: Global) -> Result<Override, Error> {
    let mut globs = OverrideBuilder::new(alloc, ".")?;
    globs.add("!*.gen.rs")?;
    globs.build()
}

fn linted(alloc: Global, globs: &Override, path: &str) -> Result<bool, Error> {
    is_linted(globs, &rust(alloc)?, path)
}

#[test]
fn a_linter_looks_at_its_types(rt: HostRuntime) -> Result<(), Fail> {
    let globs = not_generated(rt.alloc())?;
    for (path, wanted) in [
        ("src/a.rs", true),
        ("src/a.gen.rs", false),
        ("README", false),
    ] {
        assert_eq!(rt; linted(rt.alloc(), &globs, path)?, wanted);
    }
    Ok(())
}

/// Adds three lines, of which the second is invalid.
fn add_three(builder: &mut GitignoreBuilder) -> Result<(), Error> {
    for line in ["a", "{", "b"] {
        add_if_valid(builder, line)?;
    }
    Ok(())
}

/// How many rules they give.
fn valid_lines(alloc: Global) -> Result<usize, Error> {
    let mut builder = GitignoreBuilder::new(alloc, ".")?;
    add_three(&mut builder)?;
    Ok(builder.build()?.len())
}

#[test]
fn an_invalid_line_changes_nothing(rt: HostRuntime) -> Result<(), Fail> {
    assert_eq!(rt; valid_lines(rt.alloc())?, 2);
    Ok(())
}

#[test]
fn the_global_file_of_the_process_is_asked(rt: HostRuntime) -> Result<(), Fail> {
    let _ = is_ignored_globally(&rt, "a")?;
    Ok(())
}

fn row(alloc: Global) -> Result<Row, AllocError> {
    let kind = RowKind::File(Bytes::new(Vec::from_array(alloc, *b"*.o\n")?));
    let identity = Identity {
        device: 1,
        inode: 2,
    };
    Ok(Row { kind, identity })
}

/// A machine with one file of rules.
pub(crate) fn machine(alloc: Global) -> Result<TableMachine, AllocError> {
    let mut rows = BTreeMap::new(alloc);
    let path = String::from_str(alloc, "/p/.gitignore")?;
    rows.insert(path, row(alloc)?)?;
    Ok(TableMachine::new(alloc, rows))
}

/// Adds a row to a table.
fn put(
    alloc: Global,
    rows: &mut BTreeMap<String, Row>,
    path: &str,
    kind: RowKind,
) -> Result<(), AllocError> {
    let inode = rows.len() as u64;
    let identity = Identity { device: 1, inode };
    rows.insert(String::from_str(alloc, path)?, Row { kind, identity })?;
    Ok(())
}

/// Adds an entry to a directory of a table.
fn list(
    alloc: Global,
    entries: &mut Vec<RowEntry>,
    name: &str,
    file_type: FileType,
) -> Result<(), AllocError> {
    let name = Name::from_str(alloc, name)?;
    entries.push(RowEntry { name, file_type })?;
    Ok(())
}

/// What the folder of the machine lists.
fn folder(alloc: Global) -> Result<RowKind, AllocError> {
    let mut entries = Vec::new(alloc);
    for (name, file_type) in [
        (".ignore", FileType::File),
        ("a.c", FileType::File),
        ("a.o", FileType::File),
        ("l", FileType::Symlink),
    ] {
        list(alloc, &mut entries, name, file_type)?;
    }
    Ok(RowKind::Dir(entries))
}

/// A file with these bytes.
fn file(alloc: Global, bytes: &[u8]) -> Result<RowKind, AllocError> {
    Ok(RowKind::File(Bytes::new(Vec::from_slice(alloc, bytes)?)))
}

/// Adds the files of the folder.
fn put_files(alloc: Global, rows: &mut BTreeMap<String, Row>) -> Result<(), AllocError> {
    let all: [(&str, &[u8]); 3] = [("/p/.ignore", b"*.o\n"), ("/p/a.c", b""), ("/p/a.o", b"")];
    for (path, bytes) in all {
        put(alloc, rows, path, file(alloc, bytes)?)?;
    }
    Ok(())
}

/// Adds the folder and a link in it.
fn put_others(alloc: Global, rows: &mut BTreeMap<String, Row>) -> Result<(), AllocError> {
    put(alloc, rows, "/p", folder(alloc)?)?;
    let target = Name::from_str(alloc, "/p/a.c")?;
    put(alloc, rows, "/p/l", RowKind::Link(target))
}

/// A machine with a folder of files of which one is ignored, and a link.
pub(crate) fn machine_with_folder(alloc: Global) -> Result<TableMachine, AllocError> {
    let mut rows = BTreeMap::new(alloc);
    put_files(alloc, &mut rows)?;
    put_others(alloc, &mut rows)?;
    Ok(TableMachine::new(alloc, rows))
}

#[test]
fn a_checker_asks_a_machine(rt: HostRuntime) -> Result<(), Fail> {
    let machine = machine(rt.alloc())?;
    let (ignored, problem) = is_ignored_on_disk(rt.alloc(), &machine, "/p/.gitignore", "/p/a.o")?;
    assert!(rt; ignored && problem.is_none());
    Ok(())
}
