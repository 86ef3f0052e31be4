//! What one guide was told serves the others, which read nothing; and what was left is gone.

use super::{Asked, Guide, Place, Plan, Settings};
use crate::library::Verdict;
use std::ffi::OsStr;
use std::os::unix::ffi::OsStrExt;
use std::panic::{catch_unwind, AssertUnwindSafe};
use std::path::Path;
use std::{env, fs, thread};

fn verdict(guide: &mut Guide, place: &Place, dir: &Path, name: &str) -> Verdict {
    let asked = Asked {
        name: OsStr::from_bytes(name.as_bytes()),
        told: name.as_bytes(),
        dir,
        is_dir: false,
        size: None,
    };
    guide.decide(place, &asked).verdict
}

#[test]
fn a_directory_is_entered_by_what_another_thread_was_told() {
    let top = env::temp_dir().join(format!("ignore_shared_{}", std::process::id()));
    let dir = top.join("d");
    fs::create_dir_all(dir.join(".git/info")).expect("a folder");
    for (path, text) in [
        (top.join(".ignore"), "a\n"),
        (dir.join(".ignore"), "b\n{\n"),
        (dir.join(".git/info/exclude"), "c\n"),
    ] {
        fs::write(path, text).expect("a file");
    }
    let plan = Plan::new(Settings::at_first());
    let mut first = Guide::new(&plan, true);
    let begun = first.root(&top);
    let (place, error) = first.enter(&begun.place, b"d", b".git\0.ignore\0a\0b\0c\0d\0");
    assert!(begun.own.is_none() && error.is_some());
    let answers = (begun.place.answers(), place.answers());
    fs::remove_dir_all(&top).expect("the folder goes");
    let told = thread::spawn(move || {
        let mut other = Guide::new(&plan, true);
        let root = other.adopt_root(&top, answers.0.expect("what was told of the root"));
        let place = other.adopt(&root, b"d", answers.1.expect("what was told of the folder"));
        let all = ["a", "b", "c", "d"].map(|name| verdict(&mut other, &place, &dir, name));
        let above = ["a", "b"].map(|name| verdict(&mut other, &root, &top, name));
        other.leave(&place);
        other.leave(&root);
        (all, above, dir)
    });
    let (all, above, dir) = told.join().expect("no panic");
    let own = ["a", "b", "c", "d"].map(|name| verdict(&mut first, &place, &dir, name));
    let ignored = [
        Verdict::Ignore,
        Verdict::Ignore,
        Verdict::Ignore,
        Verdict::None,
    ];
    assert_eq!((all, own), (ignored, ignored));
    assert_eq!(above, [Verdict::Ignore, Verdict::None]);
}

#[test]
fn a_directory_that_was_left_is_none() {
    let top = env::temp_dir();
    let mut guide = Guide::new(&Plan::new(Settings::at_first()), false);
    let root = guide.root(&top).place;
    let (place, _) = guide.enter(&root, b"none", b"x\0");
    assert_eq!(verdict(&mut guide, &place, &top, "x"), Verdict::None);
    guide.leave(&place);
    let asked = catch_unwind(AssertUnwindSafe(|| verdict(&mut guide, &place, &top, "x")));
    assert!(asked.is_err());
    assert_eq!(verdict(&mut guide, &root, &top, "x"), Verdict::None);
    guide.leave(&root);
}
