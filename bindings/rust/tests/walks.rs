//! Matchers and walks of folders on disk.
use ignore_proved::{Cause, Error, IncrementalIgnore, Match, Reason, RuleRank, WalkBuilder};
use std::ffi::OsStr;
use std::fs;
use std::os::unix::ffi::OsStrExt;
use std::os::unix::fs::symlink;
use std::path::{Path, PathBuf};
use std::sync::Mutex;

/// What changes the environment, or goes by it, holds this.
static ENVIRONMENT: Mutex<()> = Mutex::new(());

struct Folder(PathBuf);

impl Folder {
    fn new(name: &str) -> Folder {
        let path =
            std::env::temp_dir().join(format!("ignore_proved_{name}_{}", std::process::id()));
        fs::create_dir_all(&path).expect("a folder");
        Folder(fs::canonicalize(path).expect("a folder"))
    }

    fn put(&self, name: &str, text: &str) {
        let path = self.0.join(name);
        fs::create_dir_all(path.parent().expect("a name")).expect("a folder");
        fs::write(path, text).expect("a file");
    }

    fn link(&self, name: &str, target: &str) {
        let path = self.0.join(name);
        fs::create_dir_all(path.parent().expect("a name")).expect("a folder");
        symlink(target, path).expect("a link");
    }

    fn matcher(&self) -> IncrementalIgnore {
        WalkBuilder::new(&self.0)
            .expect("a root")
            .build_matcher()
            .expect("memory")
    }

    fn listed(&self, builder: &mut WalkBuilder) -> Vec<PathBuf> {
        let walk = builder.build().expect("a walk");
        let mut paths: Vec<PathBuf> = walk
            .map(|entry| entry.expect("no error").into_path())
            .map(|path| path.strip_prefix(&self.0).expect("below the root").into())
            .collect();
        paths.sort();
        paths
    }
}

impl Drop for Folder {
    fn drop(&mut self) {
        let _ = fs::remove_dir_all(&self.0);
    }
}

#[test]
fn a_matcher_reads_what_decides() {
    let folder = Folder::new("matcher");
    folder.put(".git/info/exclude", "excluded\n");
    folder.put(".gitignore", "*.o\n");
    folder.put("a/.gitignore", "!keep.o\nsub/\n");
    let mut matcher = folder.matcher();
    let mut ask = |path: &str, is_dir: bool| matcher.matched(path, is_dir).expect("memory");
    assert!(ask("a/b.o", false).is_ignore());
    assert!(ask("a/keep.o", false).is_whitelist());
    assert!(ask("a/sub", true).is_ignore() && !ask("a/sub", true).should_descend());
    assert!(ask("a/sub/x", false).is_ignore());
    assert!(ask("excluded", false).is_ignore());
    assert!(ask("/elsewhere", false).is_none());
    folder.put("a/.gitignore", "");
    assert!(!ask("a/keep.o", false).is_ignore());
    assert_eq!(matcher.forget("a").expect("memory"), 2);
    assert!(matcher
        .matched("a/keep.o", false)
        .expect("memory")
        .is_ignore());
    fs::remove_file(folder.0.join("a/.gitignore")).expect("the file");
    folder.put("a/.ignore", "y\n");
    matcher.forget("a").expect("memory");
    assert!(matcher.matched("a/y", false).expect("memory").is_ignore());
}

#[test]
fn a_matcher_says_why() {
    let folder = Folder::new("why");
    folder.put(".git/info/exclude", "excluded\n");
    folder.put(".gitignore", "*.o\n!keep.o\n\nsub/  \n");
    folder.put("large.bin", "12345");
    let mut builder = WalkBuilder::new(&folder.0).expect("a root");
    builder.max_filesize(Some(4)).max_depth(Some(3));
    let mut matcher = builder.build_matcher().expect("memory");
    let mut ask = |path: &str| matcher.explain(path, false).expect("memory");
    let why = ask("a/b.o");
    assert!(why.answer.is_ignore());
    let Reason::Decided(Match::Ignore(Cause::Rule(rule))) = &why.reason else {
        panic!("{why:?}");
    };
    assert_eq!((rule.rank, rule.line), (RuleRank::Gitignore, Some(1)));
    assert_eq!(rule.original, "*.o");
    assert_eq!(rule.source, Some(folder.0.join(".gitignore")));
    assert_eq!(rule.directory, Some(folder.0.join("")));
    let file = folder.0.join(".gitignore").display().to_string();
    assert_eq!(why.to_string(), format!("{file}:1:*.o"));
    let why = ask("keep.o");
    assert!(matches!(why.reason, Reason::Decided(Match::Whitelist(_))));
    assert_eq!(why.to_string(), format!("{file}:2:!keep.o"));
    let why = ask("sub/x");
    assert!(
        matches!(&why.reason, Reason::Inside { directory, .. } if directory == Path::new("sub"))
    );
    assert_eq!(why.to_string(), format!("{file}:4:sub/"));
    assert_eq!(
        ask("large.bin").reason,
        Reason::Larger { size: 5, limit: 4 }
    );
    for (path, text) in [
        ("a.c", "no rule"),
        (".x", "hidden"),
        ("/elsewhere", "not asked"),
        ("a/b/c/d", "below the greatest depth"),
    ] {
        assert_eq!(ask(path).to_string(), text);
    }
    let long = "x".repeat(3000);
    folder.put("l/.ignore", &long);
    assert!(ask(&format!("l/{long}")).to_string().ends_with(&long));
}

#[test]
fn a_walk_yields_what_no_rule_ignores() {
    let folder = Folder::new("walk");
    folder.put(".git/HEAD", "");
    folder.put(".gitignore", "*.o\n/build\n");
    for name in ["a/b.o", "a/b.c", "build/x", ".hidden"] {
        folder.put(name, "");
    }
    let mut builder = WalkBuilder::new(&folder.0).expect("a root");
    let paths = |names: &[&str]| names.iter().map(PathBuf::from).collect::<Vec<_>>();
    assert_eq!(folder.listed(&mut builder), paths(&["a", "a/b.c"]));
    builder.hidden(false).max_depth(Some(1));
    assert_eq!(
        folder.listed(&mut builder),
        paths(&[".git", ".gitignore", ".hidden", "a"])
    );
    assert!(WalkBuilder::new(Path::new("/none/such")).is_err());
}

#[test]
fn links_in_circles_end() {
    let folder = Folder::new("circles");
    folder.put("d/.ignore", "x\n");
    for (name, target) in [("a", "b"), ("b", "a"), ("self", "self"), ("d/up", "..")] {
        symlink(target, folder.0.join(name)).expect("a link");
    }
    let mut builder = WalkBuilder::new(&folder.0).expect("a root");
    let names = ["a", "b", "d", "d/up", "self"];
    assert_eq!(folder.listed(&mut builder), names.map(PathBuf::from));
    let mut matcher = folder.matcher();
    let deep = "d/".repeat(300) + "y";
    for path in ["a/x", "self/self/x", "d/up/y", "d/up/d/up/y", &deep] {
        assert!(
            matcher.matched(path, false).expect("memory").is_none(),
            "{path}"
        );
    }
    assert!(matcher
        .matched("d/up/x", false)
        .expect("memory")
        .is_ignore());
}

/// A file of rules behind two links, through a linked folder, and a `.git` that is a link.
#[test]
fn rules_through_links() {
    let _held = ENVIRONMENT.lock();
    let folder = Folder::new("chains");
    let top = folder.0.to_str().expect("UTF-8");
    folder.put("n2/ignore", "*.log\n");
    folder.link("n1/ignore", &format!("{top}/n2/ignore"));
    folder.link("h/.config/git/ignore", &format!("{top}/n1/ignore"));
    folder.put("real/rules", "*.a\n");
    folder.link("w/d", "../real");
    folder.link("w/.gitignore", "d/rules");
    folder.put("store/info/exclude", "*.b\n");
    folder.link("between", "store");
    folder.link("w/.git", "../between");
    folder.link("w/sub/.ignore", "../one");
    folder.link("w/one", "sub/../two");
    folder.put("w/two", "*.c\n");
    for name in ["x.log", "x.a", "x.b", "sub/x.c", "sub/y"] {
        folder.put(&format!("w/{name}"), "");
    }
    let saved = ["HOME", "XDG_CONFIG_HOME"].map(|name| (name, std::env::var_os(name)));
    std::env::set_var("HOME", folder.0.join("h"));
    std::env::remove_var("XDG_CONFIG_HOME");
    let root = Folder(folder.0.join("w"));
    let mut builder = WalkBuilder::new(&root.0).expect("a root");
    let names = ["d", "one", "sub", "sub/y", "two"];
    assert_eq!(root.listed(&mut builder), names.map(PathBuf::from));
    let mut matcher = root.matcher();
    for (name, value) in saved {
        match value {
            Some(value) => std::env::set_var(name, value),
            None => std::env::remove_var(name),
        }
    }
    for name in ["x.log", "x.a", "x.b", "sub/x.c"] {
        let found = matcher.matched(name, false).expect("memory");
        assert!(found.is_ignore(), "{name}");
    }
}

/// Names that aren't UTF-8 come as errors with their paths; what is in them is asked and yielded.
#[test]
fn names_that_are_not_utf8() {
    let _held = ENVIRONMENT.lock();
    let folder = Folder::new("names");
    let odd = folder.0.join(OsStr::from_bytes(b"a\xff"));
    let inner = odd.join(OsStr::from_bytes(b"in\xc3\xa9\xfe"));
    fs::create_dir_all(&inner).expect("a folder");
    for path in [odd.join("x.o"), odd.join("y"), inner.join("z")] {
        fs::write(path, "").expect("a file");
    }
    fs::write(odd.join(".ignore"), "in*?\n").expect("a file");
    fs::write(folder.0.join(OsStr::from_bytes(b"b\xfe.o")), "").expect("a file");
    folder.put("z", "");
    folder.put(".ignore", "*.o\n");
    let walk = WalkBuilder::new(&folder.0).expect("a root").build();
    let (mut found, mut errors) = (Vec::new(), Vec::new());
    for item in walk.expect("a walk") {
        match item {
            Ok(entry) => found.push(entry.into_path()),
            Err(Error::WithPath { path, error }) if matches!(*error, Error::NotUtf8) => {
                errors.push(path)
            }
            Err(error) => panic!("{error}"),
        }
    }
    found.sort();
    assert_eq!(found, [odd.join("y"), folder.0.join("z")]);
    assert_eq!(errors, std::slice::from_ref(&odd));
    let mut matcher = folder.matcher();
    let mut ask = |path: &Path| matcher.matched(path, false).expect("memory");
    assert!(ask(Path::new(OsStr::from_bytes(b"b\xfe.o"))).is_ignore());
    assert!(ask(&inner.join("z")).is_ignore());
    assert!(!ask(&odd.join("y")).is_ignore());
    assert_eq!(matcher.forget(&odd).expect("memory"), 2);
}

#[test]
fn what_cannot_be_listed_comes_with_its_path() {
    let folder = Folder::new("file");
    folder.put("f", "");
    let file = folder.0.join("f");
    let mut walk = WalkBuilder::new(&file)
        .expect("a path")
        .build()
        .expect("a walk");
    match walk.next() {
        Some(Err(Error::WithPath { path, error })) => {
            assert_eq!(path, file);
            assert!(matches!(*error, Error::Io(_)));
        }
        other => panic!("{other:?}"),
    }
    assert!(walk.next().is_none());
}

#[test]
fn sizes_are_those_of_links_too() {
    let folder = Folder::new("sizes");
    for name in ["aaaaaaaaa", "bbb"] {
        folder.link(&format!("{name}.l"), name);
        folder.put(name, name);
    }
    folder.put("ddddddddd/x", "");
    let mut builder = WalkBuilder::new(&folder.0).expect("a root");
    let names = ["bbb", "bbb.l", "ddddddddd", "ddddddddd/x"];
    let found = folder.listed(builder.max_filesize(Some(5)));
    assert_eq!(found, names.map(PathBuf::from));
}
