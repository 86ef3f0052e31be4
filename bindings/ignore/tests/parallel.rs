//! Walks by several threads.

mod common;

use common::Room;
use ignore::{DirEntry, Error, ParallelVisitor, ParallelVisitorBuilder, WalkBuilder, WalkState};
use std::collections::BTreeSet;
use std::fs;
use std::panic::{catch_unwind, AssertUnwindSafe};
use std::path::PathBuf;
use std::sync::atomic::{AtomicBool, AtomicUsize, Ordering};
use std::sync::Mutex;
use std::thread;
use std::time::{Duration, Instant};

/// Collects what its thread is shown, and hands it in when it is dropped.
struct Collector<'a> {
    own: Vec<PathBuf>,
    all: &'a Mutex<Vec<PathBuf>>,
    made: &'a AtomicUsize,
}

impl ParallelVisitor for Collector<'_> {
    fn visit(&mut self, entry: Result<DirEntry, Error>) -> WalkState {
        self.own.push(entry.expect("an entry").into_path());
        WalkState::Continue
    }
}

impl Drop for Collector<'_> {
    fn drop(&mut self) {
        self.all.lock().expect("no panic").append(&mut self.own);
        self.made.fetch_sub(1, Ordering::SeqCst);
    }
}

struct Collectors<'a>(&'a Mutex<Vec<PathBuf>>, &'a AtomicUsize);

impl<'a> ParallelVisitorBuilder<'a> for Collectors<'a> {
    fn build(&mut self) -> Box<dyn ParallelVisitor + 'a> {
        self.1.fetch_add(1, Ordering::SeqCst);
        Box::new(Collector {
            own: Vec::new(),
            all: self.0,
            made: self.1,
        })
    }
}

fn walked(builder: &WalkBuilder) -> Vec<PathBuf> {
    let (all, made) = (Mutex::new(Vec::new()), AtomicUsize::new(0));
    builder.build_parallel().visit(&mut Collectors(&all, &made));
    assert_eq!(made.into_inner(), 0, "each visitor was dropped");
    all.into_inner().expect("no panic")
}

fn many(folders: usize, files: usize) -> Room {
    let room = Room::new();
    for folder in 0..folders {
        let at = room.path().join(format!("d{}/e{folder}", folder % 7));
        fs::create_dir_all(&at).expect("a folder");
        for file in 0..files {
            fs::File::create(at.join(format!("f{file}"))).expect("a file");
        }
        if folder % 5 == 0 {
            fs::write(at.join(".ignore"), "f1\nf2?\n").expect("a file");
        }
    }
    room
}

#[test]
fn a_hundred_thousand_files_are_the_same_by_one_and_by_four_threads() {
    let room = many(100, 1000);
    let mut builder = WalkBuilder::new(room.path());
    let alone: Vec<PathBuf> = builder
        .build()
        .map(|it| it.expect("an entry").into_path())
        .collect();
    let set: BTreeSet<&PathBuf> = alone.iter().collect();
    assert_eq!(set.len(), alone.len());
    assert_eq!(alone.len(), 1 + 7 + 100 + 100_000 - 20 * 11);
    for threads in [1, 4] {
        let all = walked(builder.threads(threads));
        assert_eq!(all.len(), alone.len());
        assert_eq!(all.iter().collect::<BTreeSet<_>>(), set);
    }
}

#[test]
fn a_directory_is_shown_before_what_is_in_it() {
    let room = many(30, 5);
    let seen = Mutex::new(BTreeSet::new());
    WalkBuilder::new(room.path())
        .threads(4)
        .build_parallel()
        .run(|| {
            Box::new(|entry| {
                let entry = entry.expect("an entry");
                let mut seen = seen.lock().expect("no panic");
                let above = entry.path().parent().map(PathBuf::from);
                assert!(entry.depth() == 0 || above.is_some_and(|it| seen.contains(&it)));
                assert!(seen.insert(entry.into_path()));
                WalkState::Continue
            })
        });
}

#[test]
fn each_thread_ends_the_walk_by_quit() {
    let room = many(200, 20);
    for quits in 1..=4 {
        let (made, shown) = (AtomicUsize::new(0), AtomicUsize::new(0));
        WalkBuilder::new(room.path())
            .threads(4)
            .build_parallel()
            .run(|| {
                // The first visitor, with the number 0, is for errors of the roots.
                let own = made.fetch_add(1, Ordering::SeqCst);
                let shown = &shown;
                Box::new(move |_| {
                    shown.fetch_add(1, Ordering::SeqCst);
                    if own == quits {
                        return WalkState::Quit;
                    }
                    thread::sleep(Duration::from_micros(200));
                    WalkState::Continue
                })
            });
        assert!(shown.into_inner() < 4000, "thread {quits} ended it");
    }
}

#[test]
fn quit_ends_a_walk_of_one_thread_at_once() {
    let room = many(20, 5);
    for last in [1, 2, 17] {
        let shown = AtomicUsize::new(0);
        WalkBuilder::new(room.path())
            .threads(1)
            .build_parallel()
            .run(|| {
                Box::new(|_| match shown.fetch_add(1, Ordering::SeqCst) + 1 == last {
                    true => WalkState::Quit,
                    false => WalkState::Continue,
                })
            });
        assert_eq!(shown.into_inner(), last);
    }
}

#[test]
fn the_files_of_one_directory_are_visited_by_all_threads_at_once() {
    let room = many(1, 8);
    let (under_way, begun) = (AtomicUsize::new(0), Instant::now());
    let is_late = || begun.elapsed() > Duration::from_secs(10);
    WalkBuilder::new(room.path().join("d0/e0"))
        .threads(4)
        .build_parallel()
        .run(|| {
            Box::new(|entry| {
                if entry.is_ok_and(|it| it.depth() == 1) {
                    under_way.fetch_add(1, Ordering::SeqCst);
                    while under_way.load(Ordering::SeqCst) < 4 && !is_late() {
                        thread::sleep(Duration::from_millis(1));
                    }
                }
                WalkState::Continue
            })
        });
    assert!(!is_late());
}

#[test]
fn skip_leaves_a_directory_out() {
    let room = many(14, 2);
    let shown = Mutex::new(Vec::new());
    WalkBuilder::new(room.path())
        .threads(2)
        .build_parallel()
        .run(|| {
            Box::new(|entry| {
                let entry = entry.expect("an entry");
                let skips = entry.depth() == 1 && entry.file_name() != "d3";
                shown.lock().expect("no panic").push(entry);
                if skips {
                    WalkState::Skip
                } else {
                    WalkState::Continue
                }
            })
        });
    let shown = shown.into_inner().expect("no panic");
    let deep = shown.iter().filter(|it| it.depth() > 1);
    assert!(deep
        .clone()
        .all(|it| it.path().starts_with(room.path().join("d3"))));
    // e3 with two files, and e10, whose second one is ignored.
    assert_eq!((deep.count(), shown.len()), (5, 13));
}

#[test]
fn a_panic_of_a_visitor_ends_the_walk_and_goes_on_in_the_caller() {
    let room = many(60, 20);
    for threads in [1, 2, 4] {
        let made = AtomicUsize::new(0);
        let (panicked, shown) = (AtomicBool::new(false), AtomicUsize::new(0));
        struct Counted<'a>(&'a AtomicUsize);
        impl Drop for Counted<'_> {
            fn drop(&mut self) {
                self.0.fetch_sub(1, Ordering::SeqCst);
            }
        }
        let mut builder = WalkBuilder::new(room.path());
        let ended = catch_unwind(AssertUnwindSafe(|| {
            builder.threads(threads).build_parallel().run(|| {
                made.fetch_add(1, Ordering::SeqCst);
                let counted = Counted(&made);
                let (panicked, shown) = (&panicked, &shown);
                Box::new(move |entry| {
                    let _ = &counted;
                    shown.fetch_add(1, Ordering::SeqCst);
                    let is_deep = entry.is_ok_and(|it| it.depth() == 3);
                    if is_deep && !panicked.swap(true, Ordering::SeqCst) {
                        panic!("the visitor's own");
                    }
                    thread::sleep(Duration::from_micros(100));
                    WalkState::Continue
                })
            });
        }));
        let said = ended.expect_err("the panic goes on");
        assert_eq!(said.downcast_ref::<&str>(), Some(&"the visitor's own"));
        assert!(panicked.into_inner() && shown.into_inner() < 1000);
        assert_eq!(made.into_inner(), 0, "each visitor was dropped");
    }
}

#[test]
fn roots_are_shown_with_their_errors() {
    let room = many(5, 2);
    let mut builder = WalkBuilder::new(room.path().join("none"));
    builder
        .add(room.path().join("d0"))
        .add(room.path().join("d1"))
        .add("-")
        .threads(3);
    builder.add(room.path().join("d0/e0/f0"));
    let (good, bad) = (AtomicUsize::new(0), AtomicUsize::new(0));
    builder.build_parallel().run(|| {
        Box::new(|entry| {
            let count = if entry.is_ok() { &good } else { &bad };
            count.fetch_add(1, Ordering::SeqCst);
            WalkState::Continue
        })
    });
    assert_eq!((good.into_inner(), bad.into_inner()), (2 + 2 + 3 + 2, 1));
}

#[test]
fn values_go_to_other_threads() {
    fn sendable<T: Send>() {}
    fn shareable<T: Send + Sync>() {}
    shareable::<WalkBuilder>();
    shareable::<DirEntry>();
    shareable::<Error>();
    shareable::<ignore::gitignore::Gitignore>();
    shareable::<ignore::gitignore::GitignoreBuilder>();
    shareable::<ignore::overrides::Override>();
    shareable::<ignore::types::Types>();
    shareable::<ignore::IncrementalIgnore>();
    shareable::<ignore::Walk>();
    sendable::<ignore::WalkParallel>();
}
