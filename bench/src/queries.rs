//! What a query of a single path costs.

use crate::input::first_lines;
use crate::matcher::{Matcher, time};
use ignore_base::Error;
use ignore_dir::{Outside, Settings};
use ignore_files::{DiskFiles, Files};
use ignore_query::IncrementalIgnore;
use std::alloc::{AllocError, Global};
use std::fs;

/// A matcher of paths below a root, with the files that it asks.
#[derive(Drop)]
struct Below<'f, F: Files> {
    files: &'f F,
    matcher: IncrementalIgnore,
}

impl<F: Files> Matcher for Below<'_, F> {
    fn is_match(&mut self, text: &str) -> Result<bool, Error> {
        Ok(self.matcher.matched(self.files, text, false)?.is_ignore())
    }
}

/// The same, each answer with its reason.
#[derive(Drop)]
struct Explained<'f, F: Files> {
    files: &'f F,
    matcher: IncrementalIgnore,
}

impl<F: Files> Matcher for Explained<'_, F> {
    fn is_match(&mut self, text: &str) -> Result<bool, Error> {
        let (explained, _) = self.matcher.explain(self.files, text, false)?;
        Ok(explained.answer.is_ignore())
    }
}

/// The matcher of a root by the settings at first, without a global file.
fn matcher_at(alloc: Global, root: &str) -> Result<IncrementalIgnore, AllocError> {
    let root = String::from_str(alloc, root)?;
    let settings = Settings::standard(alloc);
    Ok(IncrementalIgnore::new(settings, Outside::empty(alloc), root, None))
}

/// Prints what it costs to ask about each line of a file, as a path below a root of the disk: by a
/// matcher that keeps nothing yet (`first`), and then by what it keeps (`kept`), in so many rounds;
/// and the same where each answer is explained (`why_first`, `why_kept`).
pub(crate) fn time_queries(
    rt: &HostRuntime,
    root: &str,
    paths: &str,
    rounds: usize,
) -> Result<(), Error> {
    let text = fs::read_to_string(rt, paths)?;
    let texts = first_lines(rt.alloc(), text.as_str(), usize::MAX)?;
    for _ in 0..rounds {
        time_round(rt, root, texts.as_slice())?;
    }
    Ok(())
}

fn time_round(rt: &HostRuntime, root: &str, texts: &[&str]) -> Result<(), Error> {
    time_matched(rt, root, texts)?;
    time_explained(rt, root, texts)
}

fn time_matched(rt: &HostRuntime, root: &str, texts: &[&str]) -> Result<(), Error> {
    let files = DiskFiles::new(rt);
    let matcher = matcher_at(rt.alloc(), root)?;
    let mut below = Below {
        files: &files,
        matcher,
    };
    time(rt, "first", &mut below, texts)?;
    time(rt, "kept", &mut below, texts)
}

fn time_explained(rt: &HostRuntime, root: &str, texts: &[&str]) -> Result<(), Error> {
    let files = DiskFiles::new(rt);
    let matcher = matcher_at(rt.alloc(), root)?;
    let mut explained = Explained {
        files: &files,
        matcher,
    };
    time(rt, "why_first", &mut explained, texts)?;
    time(rt, "why_kept", &mut explained, texts)
}
