//! Names that aren't UTF-8.

mod common;

use common::Room;
use ignore::gitignore::GitignoreBuilder;
use ignore::types::TypesBuilder;
use ignore::{WalkBuilder, WalkState};
use std::collections::BTreeSet;
use std::ffi::OsStr;
use std::fs;
use std::os::unix::ffi::OsStrExt;
use std::path::{Path, PathBuf};
use std::sync::Mutex;

fn path(bytes: &[u8]) -> &Path {
    Path::new(OsStr::from_bytes(bytes))
}

#[test]
fn they_are_entries_as_others() {
    let room = Room::new();
    let folder = room.path().join(path(b"d\xff"));
    fs::create_dir_all(folder.join(path(b"in\xe9"))).expect("a folder");
    for name in [
        &b"a\xfe.c"[..],
        b"a.o",
        b"x\xfe.o",
        "\u{f7ff}".as_bytes(),
        b"\xff",
    ] {
        fs::write(folder.join(path(name)), "").expect("a file");
    }
    fs::write(folder.join(".ignore"), "*.o\n\u{f7ff}\n").expect("a file");
    fs::write(folder.join(path(b"in\xe9/deep.c")), "").expect("a file");
    let wanted: BTreeSet<PathBuf> = [&b""[..], b"a\xfe.c", "\u{f7ff}".as_bytes(), b"in\xe9"]
        .iter()
        .map(|name| folder.join(path(name)))
        .chain([
            folder.join(path(b"in\xe9/deep.c")),
            room.path().to_path_buf(),
        ])
        .map(|it| it.components().collect())
        .collect();
    let builder = WalkBuilder::new(room.path());
    let alone = builder.build().map(|it| it.expect("an entry").into_path());
    assert_eq!(alone.collect::<BTreeSet<_>>(), wanted);
    let all = Mutex::new(BTreeSet::new());
    builder.build_parallel().run(|| {
        Box::new(|entry| {
            all.lock()
                .expect("no panic")
                .insert(entry.expect("an entry").into_path());
            WalkState::Continue
        })
    });
    assert_eq!(all.into_inner().expect("no panic"), wanted);
    let inside = WalkBuilder::new(&folder).build().count();
    assert_eq!(inside, wanted.len() - 1);
}

#[test]
fn rules_and_types_match_them() {
    let mut builder = GitignoreBuilder::new(path(b"top\xff"));
    builder.add_line(None, "a?.c").expect("a rule");
    let rules = builder.build().expect("rules");
    assert!(rules.matched(path(b"top\xff/x/a\xfe.c"), false).is_ignore());
    assert!(rules.matched(path(b"a\xc3\xa9.c"), false).is_ignore());
    assert!(rules.matched(path(b"a\xfe\xfe.c"), false).is_none());
    assert_eq!(rules.path(), path(b"top\xff"));
    let mut builder = TypesBuilder::new();
    builder.add_defaults();
    let types = builder.select("c").build().expect("types");
    assert!(types.matched(path(b"\xff.c"), false).is_whitelist());
    assert!(types.matched(path(b"\xff.d"), false).is_ignore());
}
