//! Callers and disks that do what none should: an order that panics, rules from a pipe, too few
//! threads or descriptors.

mod common;

use common::{below, Room};
use ignore::{WalkBuilder, WalkState};
use std::os::fd::AsRawFd;
use std::panic::{catch_unwind, AssertUnwindSafe};
use std::process::{Command, Stdio};
use std::sync::atomic::{AtomicUsize, Ordering};
use std::sync::Mutex;
use std::time::Duration;
use std::{env, fs, thread};

/// Whether a test of this program, which is ignored else, passes in a folder after a shell's words.
fn passes_after(words: &str, test: &str, room: &Room) -> bool {
    let status = Command::new("sh")
        .args(["-c", &format!("{words} && exec \"$@\""), "sh"])
        .arg(env::current_exe().expect("this program"))
        .args(["--ignored", "--exact", test])
        .env("IGNORE_TEST_FOLDER", room.path())
        .env("RUST_BACKTRACE", "0")
        .stdout(Stdio::null())
        .status();
    status.is_ok_and(|it| it.success())
}

#[test]
fn rules_of_a_pipe_are_read_once_and_count() {
    let room = Room::new();
    room.put("a.o", "").put("b", "");
    let said = Command::new("printf")
        .arg("*.o\\n")
        .stdout(Stdio::piped())
        .spawn();
    let mut said = said.expect("printf");
    let pipe = said.stdout.take().expect("its output");
    let mut builder = WalkBuilder::new(room.path());
    let error = builder.add_ignore(format!("/proc/self/fd/{}", pipe.as_raw_fd()));
    assert!(error.is_none() && said.wait().is_ok());
    assert_eq!(below(room.path(), builder.build().flatten()), ["b"]);
}

#[test]
fn of_many_invalid_lines_the_first_hundred_are_told_and_that_there_are_more() {
    let room = Room::new();
    let lines = "{\n".repeat(20_000);
    room.put(".ignore", &lines).put("top/.ignore", &lines);
    room.put("top/sub/.ignore", &lines).put("top/sub/x", "");
    let items: Vec<_> = WalkBuilder::new(room.path().join("top")).build().collect();
    let told = |name: &str| {
        let errors = items.iter().filter_map(|it| match it {
            Ok(entry) => entry.error().map(ToString::to_string),
            Err(error) => Some(error.to_string()),
        });
        let path = room.path().join(name).to_string_lossy().into_owned();
        let all: Vec<_> = errors.filter(|it| it.contains(&path)).collect();
        (all.len(), all.concat().lines().count())
    };
    for name in [".ignore", "top/.ignore", "top/sub/.ignore"] {
        assert_eq!(told(name), (1, 101), "{name}");
    }
}

#[test]
fn after_a_panic_of_the_order_a_walk_goes_on_behind_the_directory() {
    let room = Room::new();
    room.put("a/b/x", "").put("a/b/y", "").put("c", "");
    let mut builder = WalkBuilder::new(room.path());
    builder.sort_by_file_name(|one, other| match one == "x" || one == "y" {
        true => panic!("the order's own"),
        false => one.cmp(other),
    });
    let (mut walk, mut found, mut panics) = (builder.build(), Vec::new(), 0);
    loop {
        match catch_unwind(AssertUnwindSafe(|| walk.next())) {
            Ok(Some(item)) => found.push(item.expect("an entry")),
            Ok(None) => break,
            Err(_) => panics += 1,
        }
    }
    assert_eq!(panics, 1);
    let names = below(room.path(), found.into_iter());
    assert_eq!(names, ["a", "a/b", "c"]);
}

#[test]
fn a_directory_that_goes_is_shown_before_its_error_where_links_are_followed() {
    for threads in 0..3 {
        let room = Room::new();
        room.put("a/x", "").put("b", "");
        let (gone, mut builder) = (room.path().join("a"), WalkBuilder::new(room.path()));
        builder.follow_links(true).threads(threads);
        builder.filter_entry(move |it| it.file_name() != "a" || fs::remove_dir_all(&gone).is_ok());
        let items = Mutex::new(Vec::new());
        let add = |item| items.lock().expect("no panic").push(item);
        match threads {
            0 => builder.build().for_each(add),
            _ => builder.build_parallel().run(|| {
                Box::new(|item| {
                    add(item);
                    WalkState::Continue
                })
            }),
        }
        let items = items.into_inner().expect("no panic");
        assert_eq!(items.iter().filter(|it| it.is_err()).count(), 1);
        let entries = items.into_iter().flatten();
        assert_eq!(below(room.path(), entries), ["a", "b"], "{threads}");
    }
}

#[test]
#[ignore = "it is run by another test"]
fn asks_for_too_many_threads() {
    let Some(top) = env::var_os("IGNORE_TEST_FOLDER") else {
        return;
    };
    let (mut builder, shown) = (WalkBuilder::new(top), AtomicUsize::new(0));
    let ended = catch_unwind(AssertUnwindSafe(|| {
        builder.threads(100).build_parallel().run(|| {
            Box::new(|_| {
                shown.fetch_add(1, Ordering::SeqCst);
                thread::sleep(Duration::from_millis(3));
                WalkState::Continue
            })
        });
    }));
    assert!(ended.is_err() && shown.into_inner() < 500);
}

#[test]
fn a_thread_that_cant_be_had_is_a_panic_and_ends_the_walk() {
    let room = Room::new();
    for file in 0..1000 {
        room.put(format!("{}/{file}", file % 10), "");
    }
    // Stacks of 256 MB, of which few fit, and the rest is left for the memory of all.
    let words = "ulimit -v 1200000 && export RUST_MIN_STACK=268435456 MALLOC_ARENA_MAX=1";
    assert!(passes_after(words, "asks_for_too_many_threads", &room));
}

const HIGH: usize = 13;
const WIDE: usize = 1001;

#[test]
#[ignore = "it is run by another test"]
fn lists_with_few_descriptors() {
    let Some(top) = env::var_os("IGNORE_TEST_FOLDER") else {
        return;
    };
    let items: Result<Vec<_>, _> = WalkBuilder::new(top).build().collect();
    assert_eq!(items.expect("no error").len(), 1 + HIGH * (WIDE + 1));
}

#[test]
fn large_directories_in_each_other_are_not_all_open() {
    let room = Room::new();
    let mut dir = room.path().to_path_buf();
    for _ in 0..HIGH {
        (0..WIDE).for_each(|it| drop(fs::File::create(dir.join(it.to_string()))));
        dir.push("d");
        fs::create_dir(&dir).expect("a folder");
    }
    let words = "ulimit -n 14";
    assert!(passes_after(words, "lists_with_few_descriptors", &room));
}
