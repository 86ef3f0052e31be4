//! Values that outlive what they are of, or are asked while a path is made.
use ignore_proved::gitignore::{Gitignore, GitignoreBuilder};
use ignore_proved::{DirEntry, Error, IncrementalIgnore, Match, Walk, WalkBuilder};
use std::mem;
use std::path::{Path, PathBuf};
use std::thread;

/// Doesn't compile where a type has a trait: both impls then fit.
macro_rules! lacks {
    ($of:ty: $it:path) => {
        const _: fn() = || {
            trait Lacks<Which> {
                fn is() {}
            }
            impl<T: ?Sized> Lacks<()> for T {}
            impl<T: ?Sized + $it> Lacks<u8> for T {}
            let _ = <$of as Lacks<_>>::is;
        };
    };
}

lacks!(Gitignore: Sync);
lacks!(GitignoreBuilder: Sync);
lacks!(WalkBuilder: Sync);
lacks!(IncrementalIgnore: Sync);
lacks!(Walk: Sync);
lacks!(Gitignore: Clone);
lacks!(IncrementalIgnore: Clone);
lacks!(Walk: Clone);

fn is_sent<T: Send + Sync>() {}

#[test]
fn what_is_told_goes_to_other_threads() {
    is_sent::<Error>();
    is_sent::<DirEntry>();
    is_sent::<Match<ignore_proved::gitignore::Glob>>();
}

fn is_moved<T: Send>() {}

#[test]
fn values_go_to_other_threads() {
    is_moved::<Gitignore>();
    is_moved::<GitignoreBuilder>();
    is_moved::<WalkBuilder>();
    let mut builder = WalkBuilder::new(".").expect("a root");
    let mut matcher = builder.build_matcher().expect("memory");
    let mut walk = builder.build().expect("a walk");
    let first = walk.next().is_some();
    let elsewhere = thread::spawn(move || {
        let found = matcher.matched("src", true).expect("memory").is_none();
        (found && first, matcher, walk)
    });
    let (found, matcher, walk) = elsewhere.join().expect("no panic");
    thread::spawn(move || drop(matcher))
        .join()
        .expect("no panic");
    assert!(found && walk.count() > 0);
}

#[test]
fn matchers_and_walks_outlive_their_builder() {
    let mut builder = WalkBuilder::new(".").expect("a root");
    let mut matcher = builder.build_matcher().expect("memory");
    let walk = builder.max_depth(Some(1)).build().expect("memory");
    drop(builder);
    assert!(walk.count() > 0);
    assert!(matcher.matched("src", true).expect("memory").is_none());
    mem::forget(matcher);
}

#[test]
fn rules_are_moved_and_forgotten() {
    let mut builder = GitignoreBuilder::new("").expect("memory");
    builder.add_line(None, "a").expect("a valid line");
    let mut kept = vec![builder.build().expect("memory")];
    kept.extend((0..100).map(|_| rules("b")));
    assert!(kept
        .swap_remove(0)
        .kind("a", false)
        .expect("memory")
        .is_ignore());
    mem::forget(kept.pop());
    let slot = mem::replace(&mut kept[0], rules("c"));
    assert!(slot.kind("b", false).expect("memory").is_ignore());
}

fn rules(line: &str) -> Gitignore {
    let mut builder = GitignoreBuilder::new("").expect("memory");
    builder.add_line(None, line).expect("a valid line");
    builder.build().expect("memory")
}

/// A path that asks the rules as it is made.
struct Asking<'r>(&'r Gitignore);

impl AsRef<Path> for Asking<'_> {
    fn as_ref(&self) -> &Path {
        assert!(self.0.kind("a", false).expect("memory").is_ignore());
        assert!(self.0.matched("a", false).expect("memory").is_ignore());
        Path::new("a")
    }
}

#[test]
fn rules_are_asked_while_a_path_is_made() {
    let rules = rules("a");
    assert!(rules
        .kind(Asking(&rules), false)
        .expect("memory")
        .is_ignore());
    assert!(rules
        .matched(Asking(&rules), false)
        .expect("memory")
        .is_ignore());
    assert!(rules
        .matched_path_or_any_parents(Asking(&rules), false)
        .expect("memory")
        .is_ignore());
}

#[test]
fn bytes_that_are_not_utf8_are_an_error_of_rules() {
    use std::os::unix::ffi::OsStringExt;
    let path = PathBuf::from(std::ffi::OsString::from_vec(b"a\xff".to_vec()));
    let rules = rules("a");
    assert!(matches!(rules.matched(&path, false), Err(Error::NotUtf8)));
    assert!(matches!(GitignoreBuilder::new(&path), Err(Error::NotUtf8)));
    let mut matcher = WalkBuilder::new(".")
        .expect("a root")
        .build_matcher()
        .expect("memory");
    assert!(matcher.matched(&path, false).expect("memory").is_none());
    assert_eq!(matcher.forget(&path).expect("memory"), 0);
    assert!(matcher.matched("a\0b", false).expect("memory").is_none());
}
