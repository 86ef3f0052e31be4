//! Gitignore rules, proved: the names of the crate `ignore`, over paths, by the library that
//! `ignore_proved.h` declares. All `unsafe` code is in the module `library`.
#![deny(unsafe_code)]

mod error;
pub mod every;
mod explanation;
pub mod gitignore;
mod host;
mod incremental;
mod library;
mod listing;
#[cfg(doctest)]
mod misuse;
mod names;
mod walk;

pub use error::Error;
pub use explanation::{Cause, Explanation, NamedRule, NamedType, Reason, RuleRank};
pub use incremental::{IncrementalIgnore, IncrementalMatch, WalkBuilder};
pub use walk::{DirEntry, Walk};

/// The answer of rules for a path, with what decided.
#[derive(Clone, Debug, PartialEq, Eq)]
pub enum Match<T> {
    /// No rule applies.
    None,
    /// The path is ignored.
    Ignore(T),
    /// The path is whitelisted.
    Whitelist(T),
}

impl<T> Match<T> {
    /// Whether no rule applies.
    pub fn is_none(&self) -> bool {
        matches!(self, Match::None)
    }

    /// Whether the path is ignored.
    pub fn is_ignore(&self) -> bool {
        matches!(self, Match::Ignore(_))
    }

    /// Whether the path is whitelisted.
    pub fn is_whitelist(&self) -> bool {
        matches!(self, Match::Whitelist(_))
    }

    /// What decided, if a rule applies.
    pub fn inner(&self) -> Option<&T> {
        match self {
            Match::None => None,
            Match::Ignore(value) | Match::Whitelist(value) => Some(value),
        }
    }
}
