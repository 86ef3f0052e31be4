//! Runs of the program over a folder of which one call is refused.
use crate::ends::{env_of, words_of};
use answers::Refusing;
use ig_commands::World;
use ig_commands::run::run;
use ignore_files::{Env, Fault, Files, MemoryTree, Refusal, TreeError};
use std::alloc::{AllocError, Global};
use std::cell::Cell;
use std::test::Fail;

/// A run of each command that reads a tree, of `why` with paths of standard input too, of `ignored`
/// without repositories, and with files of rules that are named.
const RUNS: [&[&str]; 7] = [
    &["ls"],
    &[
        "ls",
        "-H",
        "-L",
        "--max-filesize",
        "1K",
        "--ignore-file",
        "r",
    ],
    &["ignored", "-v", "--max-filesize", "1K"],
    &["ignored", "--no-repositories", "--ignore-file", "nope"],
    &[
        "why",
        "--max-filesize",
        "1K",
        "a.o",
        "b.o",
        "c/x",
        "d/y",
        "/x",
    ],
    &["why", "--stdin"],
    &["unused"],
];

/// What `why --stdin` is given.
const INPUT: &[u8] = b"a.o\nc/x\n";

/// A folder in a repository, with rules, of which one line is no glob.
fn tree_of(alloc: Global) -> Result<MemoryTree, TreeError> {
    let mut tree = MemoryTree::new(alloc, "/t")?;
    for dir in ["/t", "/t/.git", "/t/.git/info", "/t/c", "/t/d"] {
        tree.add_dir(dir)?;
    }
    tree.add_file("/t/.git/info/exclude", b"e\n")?;
    tree.add_file("/t/.ignore", b"*.o\n!b.o\nd\n")?;
    tree.add_file("/t/.gitignore", b"g\n")?;
    tree.add_file("/t/c/.ignore", b"{\nx\n")?;
    for file in ["/t/a.o", "/t/b.o", "/t/c/x", "/t/d/y", "/t/g"] {
        tree.add_file(file, b"")?;
    }
    tree.add_file("/t/r", b"l\n")?;
    tree.add_link("/t/k", "/t/c")?;
    Ok(tree)
}

/// The status of a run, and what it writes to the output and to the errors.
#[derive(Drop)]
struct Left {
    status: u8,
    out: Vec<u8>,
    err: Vec<u8>,
}

fn run_over<F: Files>(alloc: Global, files: &F, env: &Env, words: &[String]) -> Left {
    let mut out: Vec<u8> = Vec::new(alloc);
    let mut err: Vec<u8> = Vec::new(alloc);
    let world = World { alloc, files, env };
    let ran = run(&world, words, INPUT, &mut out, &mut err);
    Left {
        status: ran.map_or(99, |ran| ran.status),
        out,
        err,
    }
}

/// What a run of these words leaves in `/t`.
fn run_in<F: Files>(alloc: Global, files: &F, texts: &[&str]) -> Result<Left, AllocError> {
    let env = env_of(alloc)?;
    let words = words_of(alloc, texts)?;
    Ok(run_over(alloc, files, &env, words.as_slice()))
}

/// The same over the folder where the call with this number is refused, and whether it was made.
fn refused(
    alloc: Global,
    texts: &[&str],
    refusal: Refusal,
    turn: u64,
) -> Result<(Left, bool), Fail> {
    let tree = tree_of(alloc)?;
    let files = Refusing {
        tree: &tree,
        refusal,
        turn: Cell::new(turn),
    };
    let left = run_in(alloc, &files, texts)?;
    Ok((left, files.turn.get() == 0))
}

/// Whether a run that was out of memory wrote a beginning of the whole output, and reported that at
/// last.
fn is_out_of_memory(left: &Left, whole: &Left) -> bool {
    left.status == 2
        && whole.out.starts_with(left.out.as_slice())
        && left.err.ends_with(b"ig: out of memory\n")
}

/// Whether two runs left the same.
fn is_same(left: &Left, whole: &Left) -> bool {
    left.status == whole.status
        && left.out.as_slice() == whole.out.as_slice()
        && left.err.as_slice() == whole.err.as_slice()
}

/// Each call that is made is refused in turn, and at last none is.
#[test]
fn each_call_out_of_memory(rt: HostRuntime) -> Result<(), Fail> {
    for texts in RUNS {
        let (whole, _) = refused(rt.alloc(), texts, Refusal::Memory, u64::MAX)?;
        let mut calls = 0u64;
        for turn in 1..400u64 {
            let (left, made) = refused(rt.alloc(), texts, Refusal::Memory, turn)?;
            if !made {
                assert!(rt; is_same(&left, &whole), "{turn}");
                break;
            }
            let status = left.status;
            assert!(rt; is_out_of_memory(&left, &whole), "{turn}: {status}");
            calls = turn;
        }
        assert!(rt; calls > 10 && calls < 399, "{calls}");
    }
    Ok(())
}

/// Whether no fault ended a run: its status is 2 exactly where something is reported, which is never
/// that memory ran out.
fn is_at_its_end(left: &Left) -> bool {
    left.status <= 2
        && (left.status == 2) != left.err.is_empty()
        && !left.err.ends_with(b"ig: out of memory\n")
}

/// No fault ends a run.
#[test]
fn each_call_with_a_fault(rt: HostRuntime) -> Result<(), Fail> {
    let refusal = Refusal::Fault(Fault::PermissionDenied);
    for texts in RUNS {
        for turn in 1..400u64 {
            let (left, made) = refused(rt.alloc(), texts, refusal, turn)?;
            let status = left.status;
            assert!(rt; is_at_its_end(&left), "{turn}: {status}");
            if !made {
                break;
            }
        }
    }
    Ok(())
}
