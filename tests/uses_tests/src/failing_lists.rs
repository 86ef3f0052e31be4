//! Runs of `list` and `check` of which a write fails.
use crate::failing_writers::{Failing, words_of, writer_of};
use crate::refused_runs::{RUNS, folder};
use crate::trees::at_home;
use commands::World;
use commands::run::run;
use ignore::files::MemoryTree;
use std::alloc::{AllocError, Global};
use std::test::Fail;

/// The report of an output that can't be written.
const CANNOT_WRITE: &[u8] = b"igwalk: cannot write\n";

/// How many turns are tried: of each of 30 writes two.
const TURNS: usize = 60;

/// What a run leaves.
#[derive(Drop)]
struct Outcome {
    status: u8,
    out: Vec<u8>,
    err: Vec<u8>,
}

/// What a run over a folder leaves, by these writers.
fn left(
    alloc: Global,
    tree: &MemoryTree,
    texts: &[&str],
    mut out: Failing,
    mut err: Failing,
) -> Result<Outcome, AllocError> {
    let env = at_home(alloc)?;
    let words = words_of(alloc, texts)?;
    let world = World {
        alloc,
        files: tree,
        env: &env,
    };
    let ran = run(&world, words.as_slice(), &mut out, &mut err);
    Ok(Outcome {
        status: ran.unwrap_or(2),
        out: out.kept,
        err: err.kept,
    })
}

/// A writer that never fails.
fn sound(alloc: Global) -> Failing {
    writer_of(alloc, usize::MAX, false)
}

/// A writer of which one of the first 30 writes fails, and those after it too, or that one alone.
fn failing(alloc: Global, turn: usize) -> Failing {
    writer_of(alloc, turn / 2, turn % 2 == 1)
}

/// Whether a run whose output fails has written a beginning of all, and reported that last; or, if
/// no write failed, all.
fn is_begun(
    alloc: Global,
    tree: &MemoryTree,
    all: &Outcome,
    texts: &[&str],
    turn: usize,
) -> Result<bool, AllocError> {
    let some = left(alloc, tree, texts, failing(alloc, turn), sound(alloc))?;
    if some.out.len() == all.out.len() {
        return Ok(some.status == all.status && some.out == all.out && some.err == all.err);
    }
    let Some(front) = some.err.strip_suffix(CANNOT_WRITE) else {
        return Ok(false);
    };
    Ok(some.status == 2 && all.out.starts_with(&some.out) && all.err.starts_with(front))
}

/// Whether a run whose errors fail has reported and written a beginning of all, or all.
fn is_silent(
    alloc: Global,
    tree: &MemoryTree,
    all: &Outcome,
    texts: &[&str],
    turn: usize,
) -> Result<bool, AllocError> {
    let some = left(alloc, tree, texts, sound(alloc), failing(alloc, turn))?;
    if some.err.len() == all.err.len() {
        return Ok(some.status == all.status && some.out == all.out && some.err == all.err);
    }
    Ok(some.status == 2 && all.out.starts_with(&some.out) && all.err.starts_with(&some.err))
}

/// How many writes of the output of a run fail in turn, each so that a beginning is written.
fn begun(alloc: Global, tree: &MemoryTree, texts: &[&str]) -> Result<usize, AllocError> {
    let all = left(alloc, tree, texts, sound(alloc), sound(alloc))?;
    for turn in 0..TURNS {
        if !is_begun(alloc, tree, &all, texts, turn)? {
            return Ok(turn);
        }
    }
    Ok(TURNS)
}

/// The same of the errors.
fn silent(alloc: Global, tree: &MemoryTree, texts: &[&str]) -> Result<usize, AllocError> {
    let all = left(alloc, tree, texts, sound(alloc), sound(alloc))?;
    for turn in 0..TURNS {
        if !is_silent(alloc, tree, &all, texts, turn)? {
            return Ok(turn);
        }
    }
    Ok(TURNS)
}

/// Each write of the output in turn fails, and those after it fail or succeed: what is written is a
/// beginning, and that it can't be written is reported last.
#[test]
fn an_output_that_cannot_be_written_is_reported(rt: HostRuntime) -> Result<(), Fail> {
    let tree = folder(rt.alloc())?;
    for texts in RUNS {
        assert_eq!(rt; begun(rt.alloc(), &tree, texts)?, TURNS);
    }
    Ok(())
}

/// Each write of the errors in turn fails, and those after it fail or succeed: none is tried, and
/// what is written is a beginning.
#[test]
fn errors_that_cannot_be_written_end_a_list(rt: HostRuntime) -> Result<(), Fail> {
    let tree = folder(rt.alloc())?;
    for texts in RUNS {
        assert_eq!(rt; silent(rt.alloc(), &tree, texts)?, TURNS);
    }
    Ok(())
}

/// The lengths of the output and the errors where a write of either fails.
fn lengths(
    alloc: Global,
    tree: &MemoryTree,
    texts: &[&str],
    turn: usize,
) -> Result<(usize, usize), AllocError> {
    let one = left(alloc, tree, texts, failing(alloc, turn), sound(alloc))?;
    let other = left(alloc, tree, texts, sound(alloc), failing(alloc, turn))?;
    Ok((one.out.len(), other.err.len()))
}

#[test]
fn the_first_and_the_last_write_fail(rt: HostRuntime) -> Result<(), Fail> {
    let tree = folder(rt.alloc())?;
    for texts in RUNS {
        let all = lengths(rt.alloc(), &tree, texts, usize::MAX - 1)?;
        assert_eq!(rt; lengths(rt.alloc(), &tree, texts, 0)?, (0, 0));
        assert_eq!(rt; lengths(rt.alloc(), &tree, texts, 58)?, all);
    }
    Ok(())
}
