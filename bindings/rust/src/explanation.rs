//! Why a matcher answers as it does.

use crate::gitignore::text_of;
use crate::library::Why;
use crate::names::of_disk;
use crate::{Error, IncrementalMatch, Match};
use std::fmt;
use std::path::PathBuf;

/// In which list a rule stands. They are asked in this order, and the first that has a match decides.
#[derive(Clone, Copy, Debug, PartialEq, Eq)]
pub enum RuleRank {
    /// A file of a name that the caller chose.
    Custom,
    /// `.ignore`.
    Ignore,
    /// `.gitignore`.
    Gitignore,
    /// `info/exclude` of a repository.
    Exclude,
    /// The global file of git's configuration.
    Global,
    /// A file that was added by name.
    Explicit,
}

/// A rule that decides.
#[derive(Clone, Debug, PartialEq, Eq)]
pub struct NamedRule {
    /// In which list it stands.
    pub rank: RuleRank,
    /// The directory whose list it is, with a slash at its end. None for the global file and one
    /// that was added by name.
    pub directory: Option<PathBuf>,
    /// The file that its line was read from, where that is known.
    pub source: Option<PathBuf>,
    /// The number of its line there, from 1.
    pub line: Option<u64>,
    /// The line, without white space at the end.
    pub original: String,
}

/// A file type that decides.
#[derive(Clone, Debug, PartialEq, Eq)]
pub struct NamedType {
    /// Its name.
    pub name: String,
    /// The last of its globs that matches.
    pub glob: String,
}

/// What decides on a path.
#[derive(Clone, Debug, PartialEq, Eq)]
pub enum Cause {
    /// A glob of a command line as it was written; or, without one, that none matches where some
    /// glob whitelists.
    Override(Option<String>),
    /// A rule.
    Rule(NamedRule),
    /// A chosen file type; or, without one, that none matches where a type is selected.
    Type(Option<NamedType>),
    /// A leading dot of its name.
    Hidden,
}

/// Why a matcher answers as it does.
#[derive(Clone, Debug, PartialEq, Eq)]
pub enum Reason {
    /// Nothing was asked: the path is outside of the root.
    Unasked,
    /// No rule is asked: the path is the root, or the root is no directory.
    Unruled,
    /// It is a file above the least depth.
    TooShallow,
    /// It is below the greatest depth.
    TooDeep,
    /// What decides, if anything does.
    Decided(Match<Cause>),
    /// It is larger than the limit.
    Larger {
        /// Its size in bytes.
        size: u64,
        /// The greatest size in bytes.
        limit: u64,
    },
    /// It is in an ignored directory.
    Inside {
        /// The directory, by its path below the root: the first one on the way that is ignored.
        directory: PathBuf,
        /// What decides on that directory.
        cause: Match<Cause>,
    },
}

/// The answer of a matcher for a path, with its reason.
#[derive(Clone, Debug, PartialEq, Eq)]
pub struct Explanation {
    /// The answer.
    pub answer: IncrementalMatch,
    /// Its reason.
    pub reason: Reason,
}

impl Why {
    /// The length of all its texts.
    pub(crate) fn whole(&self) -> usize {
        self.directory + self.source + self.pattern + self.glob + self.ancestor
    }
}

/// The texts of a reason.
struct Texts<'t> {
    directory: &'t [u8],
    source: &'t [u8],
    pattern: &'t [u8],
    glob: &'t [u8],
}

impl Explanation {
    /// That of a path outside of the root.
    pub(crate) fn outside(is_dir: bool) -> Explanation {
        Explanation {
            answer: IncrementalMatch::outside(is_dir),
            reason: Reason::Unasked,
        }
    }
}

/// The reason of an answer by a guide, of which the texts stand one after the other.
pub(crate) fn reason_of(
    answer: IncrementalMatch,
    why: &Why,
    texts: &[u8],
) -> Result<Reason, Error> {
    match why.kind {
        3 => Ok(Reason::TooShallow),
        4 => Ok(Reason::TooDeep),
        12 => Ok(Reason::Larger {
            size: why.size,
            limit: why.limit,
        }),
        _ => Ok(Reason::Decided(cause_of(answer, why, texts)?)),
    }
}

/// What decides, by a reason of which the texts stand one after the other.
fn cause_of(answer: IncrementalMatch, why: &Why, texts: &[u8]) -> Result<Match<Cause>, Error> {
    let (directory, texts) = texts.split_at(why.directory);
    let (source, texts) = texts.split_at(why.source);
    let (pattern, texts) = texts.split_at(why.pattern);
    let texts = Texts {
        directory,
        source,
        pattern,
        glob: &texts[..why.glob],
    };
    said(answer, why, &texts)
}

/// What decides, as the answer goes by it.
fn said(answer: IncrementalMatch, why: &Why, texts: &Texts<'_>) -> Result<Match<Cause>, Error> {
    let cause = match why.kind {
        5 => return Ok(Match::None),
        6 => Cause::Rule(rule_of(why, texts)?),
        7 => Cause::Override(Some(text_of(texts.pattern)?)),
        8 => Cause::Override(None),
        9 => Cause::Type(Some(NamedType {
            name: text_of(texts.pattern)?,
            glob: text_of(texts.glob)?,
        })),
        10 => Cause::Type(None),
        11 => Cause::Hidden,
        kind => return Err(Error::Unexpected(kind)),
    };
    if answer.is_whitelist() {
        return Ok(Match::Whitelist(cause));
    }
    Ok(Match::Ignore(cause))
}

fn rule_of(why: &Why, texts: &Texts<'_>) -> Result<NamedRule, Error> {
    let rank = match why.rank {
        1 => RuleRank::Custom,
        2 => RuleRank::Ignore,
        3 => RuleRank::Gitignore,
        4 => RuleRank::Exclude,
        5 => RuleRank::Global,
        6 => RuleRank::Explicit,
        rank => return Err(Error::Unexpected(rank)),
    };
    Ok(NamedRule {
        rank,
        directory: some(why.directory > 0, texts.directory),
        source: some(why.has_source, texts.source),
        line: Some(why.line).filter(|&line| line > 0),
        original: text_of(texts.pattern)?,
    })
}

fn some(is_there: bool, text: &[u8]) -> Option<PathBuf> {
    is_there.then(|| of_disk(text))
}

/// `SOURCE:LINE:PATTERN`, the pattern as it was written. What isn't known is left out, its colon
/// isn't.
impl fmt::Display for NamedRule {
    fn fmt(&self, f: &mut fmt::Formatter<'_>) -> fmt::Result {
        if let Some(source) = &self.source {
            write!(f, "{}", source.display())?;
        }
        match self.line {
            Some(line) => write!(f, ":{line}:{}", self.original),
            None => write!(f, "::{}", self.original),
        }
    }
}

/// The rule, `override *.rs`, `type rust`, `hidden`; `no override` and `no type` where none matches.
impl fmt::Display for Cause {
    fn fmt(&self, f: &mut fmt::Formatter<'_>) -> fmt::Result {
        match self {
            Cause::Override(Some(glob)) => write!(f, "override {glob}"),
            Cause::Override(None) => write!(f, "no override"),
            Cause::Rule(rule) => write!(f, "{rule}"),
            Cause::Type(Some(found)) => write!(f, "type {}", found.name),
            Cause::Type(None) => write!(f, "no type"),
            Cause::Hidden => write!(f, "hidden"),
        }
    }
}

/// What decides, or a few plain words: `no rule`, `not asked`, `above the least depth`, `below the
/// greatest depth`, `larger than 500`. For a path in an ignored directory it is what decides on
/// that directory.
impl fmt::Display for Reason {
    fn fmt(&self, f: &mut fmt::Formatter<'_>) -> fmt::Result {
        match self {
            Reason::Unasked | Reason::Unruled => write!(f, "not asked"),
            Reason::TooShallow => write!(f, "above the least depth"),
            Reason::TooDeep => write!(f, "below the greatest depth"),
            Reason::Larger { limit, .. } => write!(f, "larger than {limit}"),
            Reason::Decided(cause) | Reason::Inside { cause, .. } => match cause.inner() {
                Some(cause) => write!(f, "{cause}"),
                None => write!(f, "no rule"),
            },
        }
    }
}

/// The text of its reason.
impl fmt::Display for Explanation {
    fn fmt(&self, f: &mut fmt::Formatter<'_>) -> fmt::Result {
        write!(f, "{}", self.reason)
    }
}
