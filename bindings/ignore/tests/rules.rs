//! Rules, overrides, types, and their errors.

mod common;

use common::Room;
use ignore::gitignore::{Gitignore, GitignoreBuilder};
use ignore::overrides::{Override, OverrideBuilder};
use ignore::types::{Types, TypesBuilder};
use ignore::{Error, Match, WalkBuilder};
use std::path::{Path, PathBuf};
use std::thread;

#[test]
fn the_rule_that_decided_is_told() {
    let mut builder = GitignoreBuilder::new("./top");
    builder
        .add_line(Some(PathBuf::from("list")), "*.o ")
        .expect("a rule");
    builder.add_line(None, "# none").expect("a comment");
    builder.add_line(None, "!keep.o").expect("a rule");
    builder.add_line(None, "/build/").expect("a rule");
    let again = builder.clone();
    for rules in [
        builder.build().expect("rules"),
        again.build().expect("rules"),
    ] {
        assert_eq!(
            (rules.len(), rules.num_ignores(), rules.num_whitelists()),
            (3, 2, 1)
        );
        assert_eq!(rules.path(), Path::new("top"));
        let Match::Ignore(glob) = rules.matched("top/src/a.o", false) else {
            panic!("it is ignored");
        };
        assert_eq!((glob.original(), glob.actual()), ("*.o", "**/*.o"));
        assert_eq!(glob.from(), Some(Path::new("list")));
        assert!(!glob.is_whitelist() && !glob.is_only_dir());
        let Match::Whitelist(glob) = rules.matched("keep.o", false) else {
            panic!("it is whitelisted");
        };
        assert!(glob.is_whitelist() && glob.from().is_none());
        assert!(rules.matched("build", false).is_none());
        assert!(rules
            .matched("build", true)
            .inner()
            .is_some_and(|it| it.is_only_dir()));
        assert!(rules.matched("build/x", false).is_none());
        assert!(rules
            .matched_path_or_any_parents("build/x", false)
            .is_ignore());
    }
    builder.add_line(None, "x").expect("a rule after build");
    assert_eq!(builder.build().expect("rules").len(), 4);
}

#[test]
fn a_path_outside_is_a_panic() {
    let mut builder = GitignoreBuilder::new("/top");
    builder.add_line(None, "a").expect("a rule");
    let rules = builder.build().expect("rules");
    let asked = thread::spawn(move || {
        rules
            .matched_path_or_any_parents("/else/a", false)
            .is_none()
    });
    assert!(asked.join().is_err());
}

#[test]
fn a_file_is_read_by_lines() {
    let room = Room::new();
    room.put("rules", "\u{feff}a\n{\n\n!b\n[z-a]\r\nc");
    let path = room.path().join("rules");
    let (rules, error) = Gitignore::new(&path);
    assert_eq!((rules.num_ignores(), rules.num_whitelists()), (2, 1));
    let Some(Error::Partial(all)) = error else {
        panic!("two lines are invalid");
    };
    let told: Vec<_> = all
        .iter()
        .map(|error| match error {
            Error::WithPath { path: at, err } if *at == path => match &**err {
                Error::WithLineNumber { line, err } => match &**err {
                    Error::Glob {
                        glob: Some(glob), ..
                    } => (*line, glob.clone()),
                    other => panic!("{other}"),
                },
                other => panic!("{other}"),
            },
            other => panic!("{other}"),
        })
        .collect();
    assert_eq!(told, [(2, "{".to_string()), (5, "[z-a]".to_string())]);
    let found = rules.matched(room.path().join("x/c"), false);
    assert_eq!(found.inner().and_then(|it| it.from()), Some(path.as_path()));

    std::fs::write(&path, b"a\n\xff\nb\n").expect("a file");
    let (rules, error) = Gitignore::new(&path);
    assert!(rules.len() == 1 && error.is_none());
    let error = GitignoreBuilder::new("")
        .add(&path)
        .expect("a line that isn't UTF-8");
    assert!(error
        .to_string()
        .ends_with("rules: line 2: stream did not contain valid UTF-8"));
    assert_eq!(
        error.io_error().map(|it| it.kind()),
        Some(std::io::ErrorKind::InvalidData)
    );

    let (rules, error) = Gitignore::new(room.path().join("none"));
    assert!(rules.is_empty() && error.is_none());
    let error = GitignoreBuilder::new("")
        .add(room.path().join("none"))
        .expect("no file");
    assert!(error.is_io() && !error.is_partial());
    let error = GitignoreBuilder::new("")
        .add(room.path())
        .expect("a folder");
    assert!(error.is_io());
}

#[test]
fn threads_ask_at_once() {
    let mut builder = GitignoreBuilder::new("");
    for number in 0..50 {
        builder
            .add_line(None, &format!("*.x{number}"))
            .expect("a rule");
    }
    let rules = builder.build().expect("rules");
    let clone = rules.clone();
    thread::scope(|scope| {
        for at in 0..4 {
            let rules = if at % 2 == 0 { &rules } else { &clone };
            scope.spawn(move || {
                for number in 0..2000 {
                    let number = (number * 7 + at) % 60;
                    let found = rules.matched(format!("d/a.x{number}"), false);
                    let wanted = (number < 50).then(|| format!("*.x{number}"));
                    assert_eq!(found.inner().map(|it| it.original().to_string()), wanted);
                }
            });
        }
    });
}

#[test]
fn overrides_decide_first_each_by_its_own_case() {
    let room = Room::new();
    for name in ["a.RS", "b.rs", "c.Txt", "d.txt", "e.md", "in/f.TXT"] {
        room.put(name, "");
    }
    room.put(".ignore", "*.txt\n");
    let mut builder = OverrideBuilder::new(room.path());
    builder.add("*.rs").expect("a glob");
    builder.case_insensitive(true).expect("it never fails");
    builder.add("*.txt").expect("a glob");
    builder.add("!d*").expect("a glob");
    assert!(matches!(builder.add("["), Err(Error::Glob { glob: Some(glob), .. }) if glob == "["));
    let overrides = builder.build().expect("globs");
    assert_eq!(
        (overrides.num_whitelists(), overrides.num_ignores()),
        (2, 1)
    );
    assert!(overrides.matched("a.RS", false).is_ignore());
    assert!(overrides.matched("b.rs", false).is_whitelist());
    assert!(overrides.matched("x/c.Txt", false).is_whitelist());
    assert!(overrides.matched("D.txt", false).is_ignore());
    assert!(overrides.matched("x", true).is_none());
    let mut walk = WalkBuilder::new(room.path());
    walk.overrides(overrides);
    let kept = common::below(room.path(), walk.build().filter_map(Result::ok));
    assert_eq!(kept, ["b.rs", "c.Txt", "in", "in/f.TXT"]);
    assert!(Override::empty().matched("a", false).is_none());
}

#[test]
fn an_unclosed_class_of_an_override_is_taken_where_it_is_allowed() {
    let room = Room::new();
    room.put("[x", "").put("x", "");
    let mut builder = OverrideBuilder::new(room.path());
    builder
        .allow_unclosed_class(true)
        .add("[x")
        .expect("a glob");
    let mut walk = WalkBuilder::new(room.path());
    walk.overrides(builder.build().expect("globs"));
    assert_eq!(
        common::below(room.path(), walk.build().filter_map(Result::ok)),
        ["[x"]
    );
}

#[test]
fn types_are_chosen_and_told() {
    let mut builder = TypesBuilder::new();
    builder.add_defaults();
    assert_eq!(builder.definitions().len(), 224);
    let rust = builder
        .definitions()
        .into_iter()
        .find(|def| def.name() == "rust");
    assert_eq!(
        rust.map(|def| def.globs().to_vec()),
        Some(vec!["*.rs".to_string()])
    );
    builder.add("foo", "*.{rs,foo}").expect("a type");
    builder.select("rust").negate("foo");
    let types = builder.build().expect("types");
    assert_eq!((types.len(), types.is_empty()), (2, false));
    for name in ["main.rs", "x/main.foo"] {
        let Match::Ignore(glob) = types.matched(name, false) else {
            panic!("{name} is ignored");
        };
        assert_eq!(glob.file_type_def().map(|def| def.name()), Some("foo"));
    }
    let Match::Ignore(glob) = types.matched("index.html", false) else {
        panic!("it is of no type");
    };
    assert!(glob.file_type_def().is_none());
    assert!(types.matched("main.rs", true).is_none());
    assert!(Types::empty().matched("a", false).is_none());
    builder.select("none");
    assert!(matches!(builder.build(), Err(Error::UnrecognizedFileType(name)) if name == "none"));
    let mut builder = TypesBuilder::new();
    for def in [
        "a",
        "a:",
        ":b",
        "a:b:c",
        "a:include:b",
        "a_b:*.c",
        "all:*.c",
    ] {
        assert!(
            matches!(builder.add_def(def), Err(Error::InvalidDefinition)),
            "{def}"
        );
    }
    builder.add_def("c:*.[ch]").expect("a type");
    builder.add_def("d:include:c,c").expect("a type");
    builder
        .add("d", "[z")
        .expect("it is looked at when it is chosen");
    assert!(builder.build().is_ok());
    builder.select("all");
    assert!(matches!(builder.build(), Err(Error::Glob { glob: Some(glob), .. }) if glob == "[z"));
}
