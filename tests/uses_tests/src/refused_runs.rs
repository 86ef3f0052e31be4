//! Runs of `list` and `check` over a folder of which one call is refused.
use crate::failing_writers::words_of;
use crate::trees::{at_home, tree_of};
use answers::Refusing;
use commands::World;
use commands::run::run;
use ignore::Fault;
use ignore::files::{Env, Files, MemoryTree, Refusal, TreeError};
use std::alloc::{AllocError, Global};
use std::cell::Cell;
use std::test::Fail;

/// A folder with rules, of which one line is no glob.
const FOLDER: &[(&str, &[u8])] = &[
    ("/t/", b""),
    ("/t/d/", b""),
    ("/t/c/", b""),
    ("/t/.h/", b""),
    ("/t/.ignore", b"*.o\n"),
    ("/t/c/.ignore", b"{\n"),
    ("/t/b.o", b""),
    ("/t/b", b""),
    ("/t/a", b""),
    ("/t/c/x", b""),
    ("/t/.h/y", b""),
];

/// That folder, whose directory `d` can't be listed.
pub(crate) fn folder(alloc: Global) -> Result<MemoryTree, TreeError> {
    let mut tree = tree_of(alloc, FOLDER)?;
    tree.fault_list("/t/d", Fault::PermissionDenied)?;
    Ok(tree)
}

/// The status of a run, and whether the last that it reports is that memory ran out.
fn end<F: Files>(alloc: Global, files: &F, env: &Env, words: &[String]) -> (u8, bool) {
    let mut out: Vec<u8> = Vec::new(alloc);
    let mut err: Vec<u8> = Vec::new(alloc);
    let world = World { alloc, files, env };
    let status = run(&world, words, &mut out, &mut err).unwrap_or(2);
    (status, err.ends_with(b"igwalk: out of memory\n"))
}

/// The same of a run of these words, at home.
fn end_at_home<F: Files>(
    alloc: Global,
    files: &F,
    texts: &[&str],
) -> Result<(u8, bool), AllocError> {
    let env = at_home(alloc)?;
    let words = words_of(alloc, texts)?;
    Ok(end(alloc, files, &env, words.as_slice()))
}

/// The same over a folder where the call with this number is refused, and whether that call was
/// made.
fn refused(
    alloc: Global,
    texts: &[&str],
    refusal: Refusal,
    turn: u64,
) -> Result<(u8, bool, bool), Fail> {
    let tree = folder(alloc)?;
    let files = Refusing {
        tree: &tree,
        refusal,
        turn: Cell::new(turn),
    };
    let (status, is_out) = end_at_home(alloc, &files, texts)?;
    Ok((status, is_out, files.turn.get() == 0))
}

/// A list and a check, each of which reports what is wrong with rules.
pub(crate) const RUNS: [&[&str]; 2] = [&["list", "/t"], &["check", "/t", "b.o", "c/x", "d"]];

/// Each call that is made is refused in turn, and at last none is.
#[test]
fn each_call_out_of_memory(rt: HostRuntime) -> Result<(), Fail> {
    for texts in RUNS {
        let mut calls = 0u64;
        for turn in 1..200u64 {
            let (status, is_out, made) = refused(rt.alloc(), texts, Refusal::Memory, turn)?;
            let wanted = if made { 2 } else { 1 };
            assert!(rt; status == wanted && is_out == made, "{turn}: {status}");
            if made {
                calls = turn;
            }
        }
        assert!(rt; calls > 10 && calls < 199, "{calls}");
    }
    Ok(())
}

/// No fault ends a run.
#[test]
fn each_call_with_a_fault(rt: HostRuntime) -> Result<(), Fail> {
    let refusal = Refusal::Fault(Fault::PermissionDenied);
    for texts in RUNS {
        for turn in 1..200u64 {
            let (status, is_out, _) = refused(rt.alloc(), texts, refusal, turn)?;
            assert!(rt; status < 2 && !is_out, "{turn}: {status}");
        }
    }
    Ok(())
}
