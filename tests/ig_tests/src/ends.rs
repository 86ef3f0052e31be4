//! Runs of the program of which a write or the read of standard input fails. Vectors say what other
//! runs write.
use ig_commands::run::run;
use ig_commands::{Ran, Stop, World};
use ignore_files::{Env, MemoryTree};
use std::alloc::{AllocError, Global};
use std::io;
use std::io::{BufRead, Read, Write};
use std::test::Fail;

/// A writer that fails after some writes.
#[derive(Drop)]
struct Failing {
    kept: Vec<u8>,
    /// How many writes succeed.
    calls: usize,
    kind: io::ErrorKind,
}

impl Write for Failing {
    fn write(&mut self, bytes: &[u8]) -> io::Result<usize> {
        if self.calls == 0 {
            return Err(io::Error::from(self.kind));
        }
        self.calls -= 1;
        self.kept.extend_from_slice(bytes)?;
        Ok(bytes.len())
    }

    fn flush(&mut self) -> io::Result<()> {
        Ok(())
    }
}

/// A writer of which every other write is interrupted.
#[derive(Drop)]
struct Interrupted {
    kept: Vec<u8>,
    is_next: bool,
}

impl Write for Interrupted {
    fn write(&mut self, bytes: &[u8]) -> io::Result<usize> {
        self.is_next = !self.is_next;
        if self.is_next {
            return Err(io::Error::from(io::ErrorKind::Interrupted));
        }
        self.kept.extend_from_slice(bytes)?;
        Ok(bytes.len())
    }

    fn flush(&mut self) -> io::Result<()> {
        Ok(())
    }
}

/// A reader that fails at once.
#[derive(Drop)]
struct Unreadable;

impl Read for Unreadable {
    fn read(&mut self, _bytes: &mut [u8]) -> io::Result<usize> {
        Err(io::Error::from(io::ErrorKind::Other))
    }
}

impl BufRead for Unreadable {
    fn fill_buf(&mut self) -> io::Result<&[u8]> {
        Err(io::Error::from(io::ErrorKind::Other))
    }

    fn consume(&mut self, _count: usize) {}
}

/// A run of these words in `/t`, where `*.o` is ignored.
fn ran<R: BufRead + Drop, W: Write, E: Write>(
    alloc: Global,
    words: &[&str],
    input: R,
    out: &mut W,
    err: &mut E,
) -> Result<Ran, Stop> {
    let (Ok(tree), Ok(env), Ok(words)) = (tree_of(alloc), env_of(alloc), words_of(alloc, words))
    else {
        return Err(Stop::Memory);
    };
    let world = World {
        alloc,
        files: &tree,
        env: &env,
    };
    run(&world, words.as_slice(), input, out, err)
}

fn tree_of(alloc: Global) -> Result<MemoryTree, ignore_files::TreeError> {
    let mut tree = MemoryTree::new(alloc, "/t")?;
    tree.add_dir("/t")?;
    tree.add_file("/t/.ignore", b"*.o\n!b.o\n")?;
    tree.add_file("/t/a.o", b"")?;
    tree.add_file("/t/b.o", b"")?;
    Ok(tree)
}

pub(crate) fn env_of(alloc: Global) -> Result<Env, AllocError> {
    Ok(Env::empty().with_current_dir(String::from_str(alloc, "/t")?))
}

pub(crate) fn words_of(alloc: Global, texts: &[&str]) -> Result<Vec<String>, AllocError> {
    let mut words = Vec::new(alloc);
    for text in texts {
        words.push(String::from_str(alloc, text)?)?;
    }
    Ok(words)
}

/// Words of a run of each command that reads a tree.
const RUNS: [&[&str]; 4] = [
    &["ls"],
    &["why", "a.o", "b.o"],
    &["ignored", "-v"],
    &["unused", "-H", "."],
];

/// The statuses, and the errors, of the runs whose output fails after so many writes.
fn with_failing_output(
    alloc: Global,
    words: &[&str],
    calls: usize,
    kind: io::ErrorKind,
) -> Result<(Option<u8>, Vec<u8>), AllocError> {
    let mut out = Failing {
        kept: Vec::new(alloc),
        calls,
        kind,
    };
    let mut err: Vec<u8> = Vec::new(alloc);
    let ended = ran(alloc, words, io::empty(), &mut out, &mut err);
    Ok((ended.ok().map(|ran| ran.status), err))
}

/// A closed pipe ends each command with status 0, and nothing is reported.
#[test]
fn a_closed_pipe_is_no_failure(rt: HostRuntime) -> Result<(), Fail> {
    for words in &RUNS[..3] {
        for calls in 0usize..3 {
            let (status, reported) = with_failing_output(
                rt.alloc(),
                words,
                calls,
                io::ErrorKind::BrokenPipe,
            )?;
            assert_eq!(rt; (status, reported.as_slice()), (Some(0), b"".as_slice()));
        }
    }
    Ok(())
}

/// A write that is interrupted is tried again, and nothing is lost or written twice.
#[test]
fn an_interrupted_write_is_tried_again(rt: HostRuntime) -> Result<(), Fail> {
    for words in RUNS {
        let mut expected: Vec<u8> = Vec::new(rt.alloc());
        let mut out = Interrupted {
            kept: Vec::new(rt.alloc()),
            is_next: false,
        };
        let mut err: Vec<u8> = Vec::new(rt.alloc());
        let as_usual = ran(rt.alloc(), words, io::empty(), &mut expected, &mut err);
        let ended = ran(rt.alloc(), words, io::empty(), &mut out, &mut err);
        assert!(rt; ended.is_ok());
        assert_eq!(rt; ended.ok().map(|ran| ran.status), as_usual.ok().map(|ran| ran.status));
        assert_eq!(rt; out.kept.as_slice(), expected.as_slice());
    }
    Ok(())
}

/// The report of each kind of a failed write.
const REPORTS: [(io::ErrorKind, &[u8]); 2] = [
    (io::ErrorKind::Other, b"ig: cannot write\n"),
    (
        io::ErrorKind::StorageFull,
        b"ig: cannot write: no space left on the device\n",
    ),
];

/// Another failed write ends each command with status 2, and is reported with its reason.
#[test]
fn a_failed_write_is_reported(rt: HostRuntime) -> Result<(), Fail> {
    for words in &RUNS[..3] {
        for calls in 0usize..3 {
            for (kind, report) in REPORTS {
                let (status, reported) = with_failing_output(rt.alloc(), words, calls, kind)?;
                assert_eq!(rt; (status, reported.as_slice()), (Some(2), report));
            }
        }
    }
    Ok(())
}

/// Runs of which nothing is to be reported, and whether something is all the same: a path that isn't
/// there, a glob that is rejected, wrong words.
const UNTOLD: [(&[&str], bool); 4] = [
    (&["ls", "--no-messages", "nope"], false),
    (&["why", "--no-messages", "/x"], false),
    (&["ls", "--no-messages", "-g", "{"], true),
    (&["ls", "--no-messages", "--nope"], true),
];

/// Whether a run ends with status 2, and whether it reports something.
fn reported_by(alloc: Global, words: &[&str]) -> (bool, bool) {
    let mut out: Vec<u8> = Vec::new(alloc);
    let mut err: Vec<u8> = Vec::new(alloc);
    let ended = ran(alloc, words, io::empty(), &mut out, &mut err);
    (ended.ok().map(|ran| ran.status) == Some(2), !err.is_empty())
}

/// Where no messages are asked for, the status says all the same that something was wrong.
#[test]
fn messages_that_are_not_asked_for(rt: HostRuntime) -> Result<(), Fail> {
    for (words, is_reported) in UNTOLD {
        assert_eq!(rt; reported_by(rt.alloc(), words), (true, is_reported));
    }
    Ok(())
}

/// Whether what a run of a word reports names a command.
fn is_hinted(alloc: Global, word: &str, command: &str) -> bool {
    let mut out: Vec<u8> = Vec::new(alloc);
    let mut err: Vec<u8> = Vec::new(alloc);
    let _ = ran(alloc, &[word], io::empty(), &mut out, &mut err);
    match std::str::from_utf8(err.as_slice()) {
        Ok(text) => text.contains(command),
        Err(_) => false,
    }
}

/// A first word that is no entry, but like a command, is reported with that.
#[test]
fn a_wrong_command(rt: HostRuntime) -> Result<(), Fail> {
    for (word, command) in [
        ("igored", "'ignored'"),
        ("wyh", "'why'"),
        ("unsed", "'unused'"),
    ] {
        assert!(rt; is_hinted(rt.alloc(), word, command), "{word}");
    }
    assert!(rt; !is_hinted(rt.alloc(), "a.o", "'"));
    Ok(())
}

/// Where nothing can be reported, a run ends with no status.
#[test]
fn errors_that_cannot_be_written(rt: HostRuntime) -> Result<(), Fail> {
    for words in [
        ["ls", "nope"],
        ["why", "/x"],
        ["ignored", "nope"],
        ["unused", "nope"],
    ] {
        let mut out: Vec<u8> = Vec::new(rt.alloc());
        let mut err = Failing {
            kept: Vec::new(rt.alloc()),
            calls: 0,
            kind: io::ErrorKind::Other,
        };
        let ended = ran(
            rt.alloc(),
            words.as_slice(),
            io::empty(),
            &mut out,
            &mut err,
        );
        assert!(rt; ended.is_err());
    }
    Ok(())
}

/// What can't be read is reported, and nothing is answered.
#[test]
fn standard_input_that_cannot_be_read(rt: HostRuntime) -> Result<(), Fail> {
    let mut out: Vec<u8> = Vec::new(rt.alloc());
    let mut err: Vec<u8> = Vec::new(rt.alloc());
    let ended = ran(
        rt.alloc(),
        &["why", "--stdin"],
        Unreadable,
        &mut out,
        &mut err,
    );
    assert_eq!(rt; ended.ok().map(|ran| ran.status), Some(2));
    assert_eq!(rt;
        err.as_slice(),
        b"ig: cannot read standard input\n".as_slice()
    );
    assert!(rt; out.is_empty());
    Ok(())
}

/// Standard input isn't read where no path is to come from there.
#[test]
fn standard_input_that_is_not_asked_for(rt: HostRuntime) -> Result<(), Fail> {
    for words in RUNS {
        let mut out: Vec<u8> = Vec::new(rt.alloc());
        let mut err: Vec<u8> = Vec::new(rt.alloc());
        let ended = ran(rt.alloc(), words, Unreadable, &mut out, &mut err);
        assert!(rt; ended.is_ok());
        assert!(rt; err.is_empty());
    }
    Ok(())
}
