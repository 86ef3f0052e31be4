//! Walks by one thread.

mod common;

use common::{below, Room};
use ignore::overrides::OverrideBuilder;
use ignore::types::TypesBuilder;
use ignore::{DirEntry, Error, Walk, WalkBuilder, WalkState};
use std::os::unix::fs::{symlink, MetadataExt};
use std::path::Path;
use std::process::Command;
use std::sync::atomic::{AtomicUsize, Ordering};
use std::{env, fs};

fn kept(builder: &WalkBuilder, room: &Room) -> Vec<String> {
    below(room.path(), builder.build().map(|it| it.expect("an entry")))
}

#[test]
fn entries_tell_what_they_are() {
    let room = Room::new();
    room.put("d/f", "four");
    symlink("d", room.path().join("l")).expect("a link");
    let items: Vec<DirEntry> = Walk::new(room.path())
        .map(|it| it.expect("an entry"))
        .collect();
    assert_eq!(items.len(), 4);
    assert_eq!((items[0].path(), items[0].depth()), (room.path(), 0));
    let file = items
        .iter()
        .find(|it| it.file_name() == "f")
        .expect("the file");
    assert_eq!(file.depth(), 2);
    assert_eq!(file.metadata().expect("it is there").len(), 4);
    assert!(file.file_type().is_some_and(|kind| kind.is_file()) && file.error().is_none());
    assert_eq!(file.clone().into_path(), room.path().join("d/f"));
    let link = items
        .iter()
        .find(|it| it.file_name() == "l")
        .expect("the link");
    assert!(link.path_is_symlink() && link.file_type().is_some_and(|kind| kind.is_symlink()));
    let stdin = Walk::new("-")
        .next()
        .expect("an item")
        .expect("standard input");
    assert!(stdin.is_stdin() && stdin.file_type().is_none() && stdin.ino().is_none());
    assert_eq!((stdin.path(), stdin.depth()), (Path::new("<stdin>"), 0));
    assert!(stdin.metadata().is_err());
}

#[test]
fn problems_of_files_of_rules_are_told_once_with_their_directory() {
    let room = Room::new();
    room.put(".ignore", "{\n[z-a]\n")
        .put("top/.git/info/exclude", "[z-a]\n")
        .put("top/a/x", "");
    room.put("top/a/.gitignore", "x\n{\n{a\n")
        .put("other/y", "");
    for threads in 0..3 {
        let mut builder = WalkBuilder::new(room.path().join("top"));
        // A second root below the same folder: what is above is told once.
        builder.add(room.path().join("other"));
        builder.hidden(false).threads(threads);
        let mut items = Vec::new();
        if threads == 0 {
            items.extend(builder.build());
        } else {
            let all = std::sync::Mutex::new(&mut items);
            builder.build_parallel().run(|| {
                Box::new(|item| {
                    all.lock().expect("no panic").push(item);
                    ignore::WalkState::Continue
                })
            });
        }
        let above: Vec<_> = items.iter().filter_map(|it| it.as_ref().err()).collect();
        assert_eq!(above.len(), 1);
        let text = above[0].to_string();
        let file = room.path().join(".ignore").display().to_string();
        let starts = [1, 2].map(|line| format!("{file}: line {line}: "));
        let lines: Vec<&str> = text.lines().collect();
        assert_eq!(lines.len(), 2, "{text}");
        assert!(lines
            .iter()
            .zip(&starts)
            .all(|(line, start)| line.starts_with(start)));
        let told: Vec<(String, Vec<String>)> = items
            .iter()
            .filter_map(|it| it.as_ref().ok())
            .filter_map(|it| Some((it.file_name().to_string_lossy().into_owned(), it.error()?)))
            .map(|(name, error)| {
                (
                    name,
                    error.to_string().lines().map(str::to_string).collect(),
                )
            })
            .collect();
        assert_eq!(told.len(), 2, "{told:?}");
        for (name, lines) in told {
            match name.as_str() {
                "top" => assert!(lines.len() == 1 && lines[0].contains("info/exclude: line 1: ")),
                "a" => {
                    assert!(lines.len() == 2 && lines[0].contains("a/.gitignore: line 2: "));
                    assert!(lines[1].contains("a/.gitignore: line 3: "));
                }
                other => panic!("{other}"),
            }
        }
        assert!(!items.iter().flatten().any(|it| it.path().ends_with("a/x")));
    }
}

#[test]
fn order_is_the_callers() {
    let room = Room::new();
    room.put("b/x", "").put("a", "").put("c", "");
    let mut builder = WalkBuilder::new(room.path());
    builder.sort_by_file_name(|one, other| other.cmp(one));
    let names = |builder: &WalkBuilder| -> Vec<String> {
        let items = builder.build().skip(1).map(|it| it.expect("an entry"));
        items
            .map(|it| it.file_name().to_string_lossy().into_owned())
            .collect()
    };
    assert_eq!(names(&builder), ["c", "b", "x", "a"]);
    builder.sort_by_file_path(|one, other| one.cmp(other));
    assert_eq!(names(&builder.clone()), ["a", "b", "x", "c"]);
}

#[test]
fn depth_size_and_filter_limit_a_walk() {
    let room = Room::new();
    room.put("a/b/c", "")
        .put("big", "0123456789")
        .put("small", "0")
        .put("a/big", "0123456789");
    let mut builder = WalkBuilder::new(room.path());
    builder.max_filesize(Some(9));
    assert_eq!(kept(&builder, &room), ["a", "a/b", "a/b/c", "small"]);
    builder.max_depth(Some(2)).min_depth(Some(2));
    assert_eq!(kept(&builder, &room), ["a/b"]);
    builder.max_depth(Some(1));
    assert_eq!(
        kept(&builder, &room),
        ["a/b"],
        "the greatest depth is at least the least"
    );
    let mut builder = WalkBuilder::new(room.path());
    builder
        .max_filesize(Some(9))
        .filter_entry(|it| it.file_name() != "b" && it.depth() > 0);
    assert_eq!(kept(&builder, &room), ["a", "small"]);
}

#[test]
fn overrides_and_types_limit_a_walk() {
    let room = Room::new();
    room.put("a.c", "")
        .put("b.rs", "")
        .put("c.md", "")
        .put("d/e.c", "")
        .put("d/f.rs", "");
    let mut builder = WalkBuilder::new(room.path());
    let mut types = TypesBuilder::new();
    types.add_defaults().select("c").select("rust");
    builder.types(types.build().expect("types"));
    assert_eq!(
        kept(&builder, &room),
        ["a.c", "b.rs", "d", "d/e.c", "d/f.rs"]
    );
    let mut globs = OverrideBuilder::new(room.path());
    globs.add("!d/*.rs").expect("a glob");
    builder.overrides(globs.build().expect("globs"));
    assert_eq!(kept(&builder, &room), ["a.c", "b.rs", "d", "d/e.c"]);
    let mut globs = OverrideBuilder::new(room.path());
    globs.add("*.md").expect("a glob");
    builder.overrides(globs.build().expect("globs"));
    assert_eq!(kept(&builder, &room), ["c.md", "d"]);
}

#[test]
fn links_are_followed_and_loops_are_errors() {
    let room = Room::new();
    room.put("d/.ignore", "no\n")
        .put("d/no", "")
        .put("d/yes", "")
        .put("e/", "");
    symlink("../d", room.path().join("e/l")).expect("a link");
    symlink("..", room.path().join("d/up")).expect("a link");
    symlink("nowhere", room.path().join("broken")).expect("a link");
    let mut builder = WalkBuilder::new(room.path());
    assert_eq!(
        kept(&builder, &room),
        ["broken", "d", "d/up", "d/yes", "e", "e/l"]
    );
    builder.follow_links(true);
    let (mut found, mut failed) = (Vec::new(), Vec::new());
    for item in builder.build() {
        match item {
            Ok(entry) => found.push(entry),
            Err(error) => failed.push(error),
        }
    }
    assert!(found
        .iter()
        .any(|it| it.path().ends_with("e/l") && it.path_is_symlink()));
    assert_eq!(
        below(room.path(), found.into_iter()),
        ["d", "d/yes", "e", "e/l", "e/l/yes"]
    );
    let loops = failed.iter().filter(|error| match error {
        Error::WithDepth { err, .. } => matches!(&**err, Error::Loop { .. }),
        _ => false,
    });
    assert_eq!((loops.count(), failed.len()), (2, 3));
    assert!(failed
        .iter()
        .any(|it| it.io_error().is_some() && it.depth() == Some(1)));
}

#[test]
fn a_root_that_isnt_there_is_an_error_and_the_walk_goes_on() {
    let room = Room::new();
    room.put("f", "");
    let mut builder = WalkBuilder::new(room.path().join("none"));
    builder.add(room.path().join("f")).add("-");
    let items: Vec<_> = builder.build().collect();
    assert_eq!(items.len(), 3);
    let error = items[0].as_ref().expect_err("it isn't there");
    assert_eq!(
        error.io_error().map(|it| it.kind()),
        Some(std::io::ErrorKind::NotFound)
    );
    assert!(items[1].as_ref().is_ok_and(|it| it.depth() == 0));
    assert!(WalkBuilder::empty().build().next().is_none());
}

#[test]
fn explicit_files_and_custom_names_count() {
    let room = Room::new();
    room.put("rules", "*.o\n{\n")
        .put("a.o", "")
        .put("b.o", "")
        .put("c", "")
        .put(".mine", "c\n");
    room.put(".yours", "!c\n!b.o\n");
    let mut builder = WalkBuilder::new(room.path());
    let error = builder
        .current_dir(room.path())
        .add_ignore(room.path().join("rules"));
    assert!(error.is_some_and(|it| it.to_string().contains("rules: line 2: ")));
    assert_eq!(kept(&builder, &room), ["c", "rules"]);
    builder.add_custom_ignore_filename(".mine");
    assert_eq!(kept(&builder, &room), ["rules"]);
    builder.add_custom_ignore_filename(".yours");
    assert_eq!(kept(&builder, &room), ["b.o", "c", "rules"]);
    assert!(builder
        .add_ignore(room.path().join("none"))
        .is_some_and(|it| it.is_io()));
}

#[test]
fn a_worktrees_exclude_file_counts() {
    let room = Room::new();
    room.put("main/.git/info/exclude", "secret\n")
        .put("main/.git/worktrees/w/commondir", "../..\n");
    let git = room.path().join("main/.git/worktrees/w");
    room.put("w/.git", &format!("gitdir: {}\n", git.display()));
    room.put("w/secret", "")
        .put("w/open", "")
        .put("w/sub/secret", "");
    let builder = WalkBuilder::new(room.path().join("w"));
    assert_eq!(kept(&builder, &room), ["w", "w/open", "w/sub"]);
}

#[test]
fn matchers_answer_single_paths() {
    let room = Room::new();
    room.put(".git/", "")
        .put(".gitignore", "*.o\nout/\n")
        .put("a/.gitignore", "!k.o\n{\n");
    room.put("a/k.o", "")
        .put("a/x.o", "0123456789")
        .put("a/big", "0123456789");
    let mut builder = WalkBuilder::new(room.path());
    builder.add("-").max_filesize(Some(5)).max_depth(Some(3));
    let mut all = builder.build_matchers();
    assert_eq!(all.len(), 2);
    assert!(all[1].matched("anything", false).is_none() && all[1].normalize("x").is_none());
    let matcher = &mut all[0];
    assert_eq!(matcher.root(), room.path());
    let (found, error) = matcher.matched_with_errors("a/k.o", false);
    assert!(found.is_whitelist() && error.is_some_and(|it| it.to_string().contains("line 2")));
    let (found, error) = matcher.matched_with_errors("./a//x.o", false);
    assert!(found.is_ignore() && error.is_none() && found.invert().is_whitelist());
    assert!(matcher.matched("a/big", false).is_ignore());
    assert!(matcher.matched("out/in", false).is_ignore());
    assert!(matcher.matched("out", false).is_none() && matcher.matched("out", true).is_ignore());
    let found = matcher.matched("a/b/c", true);
    assert!(found.is_none() && !found.should_descend() && found.is_within_depth());
    let found = matcher.matched("a/b/c/d", true);
    assert!(found.is_ignore() && !found.is_within_depth());
    assert!(matcher.matched("a", true).should_descend());
    assert!(matcher.matched("/a/x.o", false).is_none());
    assert!(matcher.matched("", true).is_none());
    let inside = room.path().join("a/../a/./x.o");
    assert_eq!(
        matcher.normalize(inside).as_deref(),
        Some(Path::new("a/x.o"))
    );
    assert!(matcher.normalize("/").is_none());
    fs::write(room.path().join("a/.gitignore"), "k.o\n").expect("a file");
    assert!(
        matcher.matched("a/k.o", false).is_whitelist(),
        "what was read is kept"
    );
    assert!(
        matcher.clone().matched("a/k.o", false).is_ignore(),
        "a clone reads anew"
    );
}

#[test]
fn a_directory_that_cant_be_listed_is_yielded_before_its_error() {
    let room = Room::new();
    room.put("a/x", "").put("b", "");
    let gone = room.path().join("a");
    let mut builder = WalkBuilder::new(room.path());
    builder.sort_by_file_name(|one, other| one.cmp(other));
    let removed = gone.clone();
    builder.filter_entry(move |it| {
        if it.file_name() == "a" {
            fs::remove_dir_all(&removed).expect("the folder goes");
        }
        true
    });
    let items: Vec<_> = builder.build().collect();
    assert_eq!(items.len(), 4);
    assert!(items[1].as_ref().is_ok_and(|it| it.path() == gone));
    let error = items[2].as_ref().expect_err("it is gone");
    assert!(error.depth() == Some(1) && error.io_error().is_some());
    assert!(items[3].as_ref().is_ok_and(|it| it.path().ends_with("b")));
}

#[test]
fn another_device_isnt_entered() {
    let device = |path: &str| fs::metadata(path).map(|it| it.dev()).ok();
    if device("/proc").is_none() || device("/proc") == device("/") {
        return;
    }
    let mut builder = WalkBuilder::new("/");
    builder.standard_filters(false).max_depth(Some(2));
    builder.filter_entry(|it| it.path().starts_with("/proc"));
    for stays in [false, true] {
        builder.same_file_system(stays);
        let below = AtomicUsize::new(0);
        let count = |it: &DirEntry| {
            below.fetch_add(usize::from(it.depth() == 2), Ordering::SeqCst);
        };
        builder.build().flatten().for_each(|it| count(&it));
        assert_eq!(below.swap(0, Ordering::SeqCst) == 0, stays);
        builder.build_parallel().run(|| {
            Box::new(|item| {
                item.iter().for_each(count);
                WalkState::Continue
            })
        });
        assert_eq!(below.into_inner() == 0, stays);
    }
}

/// Run by the test below, with its standard output in a file of the folder that it lists.
#[test]
#[ignore = "it is run by another test"]
fn lists_the_folder_of_its_output() {
    let Some(top) = env::var_os("IGNORE_TEST_FOLDER") else {
        return;
    };
    for skips in [false, true] {
        let mut builder = WalkBuilder::new(&top);
        builder.skip_stdout(skips);
        for entry in builder.build().flatten().filter(|it| it.depth() > 0) {
            println!("{skips} {}", entry.file_name().to_string_lossy());
        }
        let count = AtomicUsize::new(0);
        builder.build_parallel().run(|| {
            Box::new(|_| {
                count.fetch_add(1, Ordering::SeqCst);
                WalkState::Continue
            })
        });
        println!("{skips} count {}", count.into_inner());
    }
}

#[test]
fn the_file_of_standard_output_is_left_out() {
    let room = Room::new();
    room.put("other", "");
    let out = fs::File::create(room.path().join("out")).expect("a file");
    let status = Command::new(env::current_exe().expect("this program"))
        .args([
            "--ignored",
            "--exact",
            "--nocapture",
            "lists_the_folder_of_its_output",
        ])
        .env("IGNORE_TEST_FOLDER", room.path())
        .stdout(out)
        .status();
    assert!(status.is_ok_and(|it| it.success()));
    let text = fs::read_to_string(room.path().join("out")).expect("a file");
    let said = |line: &str| text.lines().any(|it| it.ends_with(line));
    assert!(
        said("false out") && said("false other") && said("false count 3"),
        "{text}"
    );
    assert!(
        !said("true out") && said("true other") && said("true count 2"),
        "{text}"
    );
}
