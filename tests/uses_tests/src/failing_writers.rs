//! Runs of the commands of which a write fails. Vectors say what other runs write.
use crate::trees::UNKNOWN;
use commands::run::run;
use commands::{Stop, World};
use ignore::files::MemoryTree;
use std::alloc::{AllocError, Global};
use std::io;
use std::io::Write;
use std::test::Fail;

pub(crate) fn words_of(alloc: Global, texts: &[&str]) -> Result<Vec<String>, AllocError> {
    let mut words = Vec::new(alloc);
    for text in texts {
        words.push(String::from_str(alloc, text)?)?;
    }
    Ok(words)
}

/// A run of `match` or of wrong words, which asks no file.
fn run_words<W: Write, E: Write>(
    alloc: Global,
    words: &[String],
    out: &mut W,
    err: &mut E,
) -> Result<u8, Stop> {
    let Ok(tree) = MemoryTree::new(alloc, "/") else {
        return Err(Stop::Memory);
    };
    let world = World {
        alloc,
        files: &tree,
        env: &UNKNOWN,
    };
    run(&world, words, out, err)
}

/// A writer of which some of its calls fail: all from one number on, or that one alone.
#[derive(Drop)]
pub(crate) struct Failing {
    pub(crate) kept: Vec<u8>,
    /// How many calls succeed before the one that fails.
    calls: usize,
    /// Whether the calls after that one succeed again.
    recovers: bool,
}

impl Write for Failing {
    fn write(&mut self, bytes: &[u8]) -> io::Result<usize> {
        if self.calls == 0 {
            if self.recovers {
                self.calls = usize::MAX;
            }
            return Err(io::Error::from(io::ErrorKind::BrokenPipe));
        }
        self.calls -= 1;
        self.kept.extend_from_slice(bytes)?;
        Ok(bytes.len())
    }

    fn flush(&mut self) -> io::Result<()> {
        Ok(())
    }
}

pub(crate) fn writer_of(alloc: Global, calls: usize, recovers: bool) -> Failing {
    Failing {
        kept: Vec::new(alloc),
        calls,
        recovers,
    }
}

/// The status, the output and the errors, where a write of the output fails after so many.
fn with_failing_output(
    alloc: Global,
    calls: usize,
    recovers: bool,
) -> Result<(u8, Vec<u8>, Vec<u8>), AllocError> {
    let words = words_of(alloc, &["match", "/r", "{\n*.rs", "a.rs", "f"])?;
    let mut out = writer_of(alloc, calls, recovers);
    let mut err: Vec<u8> = Vec::new(alloc);
    let status = run_words(alloc, words.as_slice(), &mut out, &mut err).unwrap_or(2);
    Ok((status, out.kept, err))
}

/// The same where a write of the errors fails.
fn with_failing_errors(
    alloc: Global,
    calls: usize,
    recovers: bool,
) -> Result<(u8, Vec<u8>, Vec<u8>), AllocError> {
    let words = words_of(alloc, &["match", "/r", "{\n*.rs", "a.rs", "f"])?;
    let mut out: Vec<u8> = Vec::new(alloc);
    let mut err = writer_of(alloc, calls, recovers);
    let status = run_words(alloc, words.as_slice(), &mut out, &mut err).unwrap_or(2);
    Ok((status, out, err.kept))
}

const NOTHING: &[u8] = b"";

const WRITTEN: &[u8] = b"ignore *.rs\n";

const REPORTED: &[u8] = b"igwalk: line 1: error parsing glob '{': unclosed alternates\n";

const REPORTED_AND_ENDED: &[u8] =
    b"igwalk: line 1: error parsing glob '{': unclosed alternates\nigwalk: cannot write\n";

/// Each write of the answer in turn fails, and those after it fail or succeed.
#[test]
fn an_answer_that_cannot_be_written_is_reported(rt: HostRuntime) -> Result<(), Fail> {
    for calls in 0usize..20 {
        let (status, written, reported) = with_failing_output(
            rt.alloc(),
            calls / 2,
            calls % 2 == 1,
        )?;
        let wanted = if written.as_slice() == WRITTEN {
            (1, REPORTED)
        } else {
            (2, REPORTED_AND_ENDED)
        };
        assert!(rt; WRITTEN.starts_with(&written));
        assert_eq!(rt; (status, reported.as_slice()), wanted);
    }
    Ok(())
}

/// Each write of the errors in turn fails, and those after it fail or succeed: none is tried.
#[test]
fn errors_that_cannot_be_written_end_the_run(rt: HostRuntime) -> Result<(), Fail> {
    for calls in 0usize..40 {
        let (status, written, reported) = with_failing_errors(
            rt.alloc(),
            calls / 2,
            calls % 2 == 1,
        )?;
        let wanted = if reported.as_slice() == REPORTED {
            (1, WRITTEN)
        } else {
            (2, NOTHING)
        };
        assert!(rt; REPORTED.starts_with(&reported));
        assert_eq!(rt; (status, written.as_slice()), wanted);
    }
    Ok(())
}

/// The status of a run of which a write of the output fails after so many, as do those after it;
/// and how much it has written.
fn end_of_output(alloc: Global, calls: usize) -> Result<(u8, usize), AllocError> {
    let (status, written, _) = with_failing_output(alloc, calls, false)?;
    Ok((status, written.len()))
}

/// The same of a write of the errors, and how much was reported.
fn end_of_errors(alloc: Global, calls: usize) -> Result<(u8, usize), AllocError> {
    let (status, _, reported) = with_failing_errors(alloc, calls, false)?;
    Ok((status, reported.len()))
}

/// The tests above let each write in turn fail: they begin at the first.
#[test]
fn the_first_write_fails(rt: HostRuntime) -> Result<(), Fail> {
    assert_eq!(rt; end_of_output(rt.alloc(), 0)?, (2, 0));
    assert_eq!(rt; end_of_errors(rt.alloc(), 0)?, (2, 0));
    Ok(())
}

/// And at last none fails.
#[test]
fn at_last_no_write_fails(rt: HostRuntime) -> Result<(), Fail> {
    let (of_errors, _) = end_of_errors(rt.alloc(), 19)?;
    let (of_output, _) = end_of_output(rt.alloc(), 9)?;
    assert_eq!(rt; (of_errors, of_output), (1, 1));
    Ok(())
}
