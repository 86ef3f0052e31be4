//! What the crate adds to the library: values, errors, texts of any length, files on disk.
use ignore_proved::gitignore::{Gitignore, GitignoreBuilder};
use ignore_proved::{Error, Match};
use std::path::{Path, PathBuf};

fn rules_of(lines: &[&str]) -> Gitignore {
    let mut builder = GitignoreBuilder::new("").expect("memory");
    for line in lines {
        builder.add_line(None, line).expect("a valid line");
    }
    builder.build().expect("memory")
}

#[test]
fn the_last_rule_decides() {
    let rules = rules_of(&["*.o", "!keep.o", "build/"]);
    match rules.matched("src/keep.o", false).expect("memory") {
        Match::Whitelist(glob) => {
            assert_eq!((glob.original(), glob.actual()), ("!keep.o", "**/keep.o"));
            assert!(glob.is_whitelist() && !glob.is_only_dir());
            assert_eq!((glob.from(), glob.line()), (None, None));
        }
        other => panic!("{other:?}"),
    }
    assert!(rules.matched("src/a.o", false).expect("memory").is_ignore());
    assert!(rules.kind("build", false).expect("memory").is_none());
    assert!(rules.kind("build", true).expect("memory").is_ignore());
    assert!(rules
        .matched_path_or_any_parents("build/x", false)
        .expect("memory")
        .is_ignore());
    assert_eq!(
        (rules.len(), rules.num_ignores(), rules.num_whitelists()),
        (3, 2, 1)
    );
}

#[test]
fn an_ignored_folder_decides_from_the_top_down() {
    let mut builder = GitignoreBuilder::new("r").expect("memory");
    for line in ["a/", "!a/b", "!keep"] {
        builder.add_line(None, line).expect("a valid line");
    }
    let rules = builder.build().expect("memory");
    let ask = |path: &str| rules.matched_as_git(path, false).expect("memory");
    for path in ["a/b", "r/a/b", "x/a/b/keep"] {
        assert_eq!(ask(path).inner().expect("a rule").original(), "a/");
        assert!(ask(path).is_ignore());
    }
    assert!(ask("r/x/keep").is_whitelist());
    assert!(ask("keep/x").is_none() && ask("").is_none());
    let all = rules_of(&["*/"]);
    assert!(all.matched_as_git("a", false).expect("memory").is_none());
    assert!(all
        .matched_as_git("a/b", false)
        .expect("memory")
        .is_ignore());
}

#[test]
fn errors_say_why() {
    let mut builder = GitignoreBuilder::new("").expect("memory");
    match builder.add_line(None, "{") {
        Err(Error::Invalid(text)) => {
            assert_eq!(text, "error parsing glob '{': unclosed alternates")
        }
        _ => panic!("an invalid line is added"),
    }
    let text = "{\n".repeat(100) + "a\n";
    match builder.add_str("f", text.as_bytes()) {
        Err(Error::Invalid(text)) => assert_eq!(text.lines().count(), 100),
        _ => panic!("invalid lines are added"),
    }
    assert_eq!(builder.build().expect("memory").len(), 1);
    assert!(matches!(
        Gitignore::new("/none/such/file"),
        Err(Error::Io(_))
    ));
}

#[test]
fn a_file_on_disk_and_long_texts() {
    let folder = std::env::temp_dir().join(format!("ignore_proved_{}", std::process::id()));
    std::fs::create_dir_all(&folder).expect("a folder");
    let (file, long) = (folder.join(".gitignore"), "a".repeat(3000));
    std::fs::write(&file, &long).expect("a file");
    let rules = Gitignore::new(&file).expect("valid rules");
    let found = rules.matched(folder.join(&long), false).expect("memory");
    let glob = found.inner().expect("a rule");
    assert_eq!(
        (glob.from(), glob.original()),
        (Some(file.as_path()), long.as_str())
    );
    std::fs::remove_dir_all(&folder).expect("the folder goes");
}

#[test]
fn options_are_of_later_lines() {
    let mut builder = GitignoreBuilder::new(Path::new("")).expect("memory");
    builder
        .add_line(Some(PathBuf::from("f")), "a")
        .expect("a valid line");
    builder
        .case_insensitive(true)
        .expect("a builder")
        .add_line(None, "b")
        .expect("a valid line");
    let rules = builder.build().expect("memory");
    assert!(rules.kind("A", false).expect("memory").is_none());
    assert!(rules.kind("B", false).expect("memory").is_ignore());
}
