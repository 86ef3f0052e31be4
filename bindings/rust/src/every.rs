//! What is found of rules over all paths, whatever a tree holds, as in the proved library's module of
//! this name.
//!
//! A path is asked of rules at their root: names joined by single slashes, a file's or a directory's.
//! A list reaches it where it ignores no folder on the way. What is found holds of the list alone:
//! rules elsewhere may whitelist a folder that it ignores.

use crate::gitignore::{done, error_of, text_of};
use crate::library::{self, Comparing, DifferenceParts, FindingParts, Findings, Rules};
use crate::Error;
use std::path::PathBuf;

/// A number of states that serves lists of some thousand short rules.
pub const LIMIT: usize = 1_000_000;

/// A path, and whether it is a directory's.
#[derive(Clone, Debug, PartialEq, Eq)]
pub struct Question {
    /// The path.
    pub path: PathBuf,
    /// Whether it is a directory's.
    pub is_dir: bool,
}

/// A path on which a rule decides, in a folder that the list ignores.
#[derive(Clone, Debug, PartialEq, Eq)]
pub struct Example {
    /// A shortest one.
    pub question: Question,
    /// The folder, with which it begins.
    pub folder: PathBuf,
    /// The index of the rule that ignores the folder.
    pub rule: usize,
}

/// Why a rule decides on no path which its list reaches.
#[derive(Clone, Debug, PartialEq, Eq)]
pub enum Why {
    /// It decides on no path at all; where it applies, the rules with these indices decide, and no
    /// others.
    Overruled(Vec<usize>),
    /// It applies to no path.
    Unmatched,
    /// It decides only in folders that the list ignores.
    ByFolders(Example),
    /// Whether it decides in such folders would have needed more states than the limit.
    Unreached,
}

/// A rule that decides on no path which its list reaches.
#[derive(Clone, Debug, PartialEq, Eq)]
pub struct Finding {
    /// Its index, counted from 0 in the order in which rules were added.
    pub rule: usize,
    /// Why it decides on none.
    pub why: Why,
}

/// Which verdicts count as the same.
#[derive(Clone, Copy, Debug, PartialEq, Eq)]
pub enum Counted {
    /// Each for itself.
    Verdicts,
    /// None and whitelist as one: what counts is whether a path is ignored.
    Ignored,
}

/// What a list says of a path, by the indices of its rules.
#[derive(Clone, Debug, PartialEq, Eq)]
pub enum Said {
    /// No rule decides.
    Nothing,
    /// This rule decides and ignores.
    Ignored(usize),
    /// This rule decides and whitelists.
    Whitelisted(usize),
}

/// A path at which two lists differ, and what each says.
#[derive(Clone, Debug, PartialEq, Eq)]
pub struct Difference {
    /// The path.
    pub question: Question,
    /// What the list says that was asked.
    pub before: Said,
    /// What the other says.
    pub after: Said,
}

/// What is found of the dead rules.
pub(crate) fn findings_of(rules: &mut Rules, limit: usize) -> Result<Vec<Finding>, Error> {
    let mut findings = Findings::new(rules, limit).map_err(error_of)?;
    let mut found = Vec::new();
    while let Some(finding) = finding_at(&mut findings, found.len())? {
        found.push(finding);
    }
    Ok(found)
}

fn finding_at(findings: &mut Findings, index: usize) -> Result<Option<Finding>, Error> {
    let (mut room, mut parts) = (vec![0; 512], FindingParts::default());
    loop {
        match findings.rule(index, &mut parts, &mut room) {
            library::NONE => return Ok(None),
            code => done(code)?,
        }
        let whole = parts.path + parts.folder;
        if whole <= room.len() {
            let rule = parts.rule;
            let why = why_of(findings, index, &parts, &room[..whole])?;
            return Ok(Some(Finding { rule, why }));
        }
        room.resize(whole, 0);
    }
}

fn why_of(
    findings: &mut Findings,
    index: usize,
    parts: &FindingParts,
    texts: &[u8],
) -> Result<Why, Error> {
    match parts.kind {
        1 => overruled(findings, index, parts.overruling),
        2 => Ok(Why::Unmatched),
        3 => Ok(Why::ByFolders(Example {
            question: Question {
                path: path_of(&texts[..parts.path])?,
                is_dir: parts.is_dir,
            },
            folder: path_of(&texts[parts.path..])?,
            rule: parts.folder_rule,
        })),
        4 => Ok(Why::Unreached),
        kind => Err(Error::Unexpected(kind)),
    }
}

fn overruled(findings: &mut Findings, index: usize, count: usize) -> Result<Why, Error> {
    let mut rules = Vec::with_capacity(count);
    for number in 0..count {
        let mut rule = 0;
        done(findings.overruling(index, number, &mut rule))?;
        rules.push(rule);
    }
    Ok(Why::Overruled(rules))
}

/// A shortest path at which two lists differ, if they do.
pub(crate) fn difference_of(
    before: &mut Rules,
    after: &mut Rules,
    counted: Counted,
    limit: usize,
) -> Result<Option<Difference>, Error> {
    let options = Comparing {
        limit,
        only_ignored: counted == Counted::Ignored,
    };
    let (mut room, mut parts) = (vec![0; 512], DifferenceParts::default());
    loop {
        match before.same(after, &options, &mut parts, &mut room) {
            library::OK => return Ok(None),
            library::DIFFERENT => {}
            code => return Err(error_of(code)),
        }
        if parts.path <= room.len() {
            return Ok(Some(told_of(&parts, &room[..parts.path])?));
        }
        room.resize(parts.path, 0);
    }
}

fn told_of(parts: &DifferenceParts, path: &[u8]) -> Result<Difference, Error> {
    Ok(Difference {
        question: Question {
            path: path_of(path)?,
            is_dir: parts.is_dir,
        },
        before: said_of(parts.before, parts.before_rule)?,
        after: said_of(parts.after, parts.after_rule)?,
    })
}

fn said_of(verdict: u32, rule: usize) -> Result<Said, Error> {
    match verdict {
        library::NONE => Ok(Said::Nothing),
        library::IGNORE => Ok(Said::Ignored(rule)),
        library::WHITELIST => Ok(Said::Whitelisted(rule)),
        verdict => Err(Error::Unexpected(verdict)),
    }
}

fn path_of(text: &[u8]) -> Result<PathBuf, Error> {
    Ok(PathBuf::from(text_of(text)?))
}
