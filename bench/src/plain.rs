//! The plain matcher that the passes over positions are compared with: it tries one way through
//! the glob after another, and goes back where one ends. On some globs that takes exponential time,
//! so it gives up.

use crate::tokens::{Token, tokens_of};
use ignore_base::Error;
use std::alloc::{AllocError, Global};

/// The most tokens that are tried for a text.
const LIMIT: u64 = 1_000_000_000;

/// A place in the tokens, and one in the text.
#[derive(Clone, Copy)]
struct State {
    token: usize,
    at: usize,
}

/// Globs without braces, one of which is to match.
#[derive(Drop)]
pub(crate) struct Plain {
    globs: Vec<Vec<Token>>,
    /// The characters of the text that was matched last.
    text: Vec<char>,
    /// What is left to try.
    states: Vec<State>,
}

impl Plain {
    /// The matcher of globs without braces and backslashes, with a space between two.
    pub(crate) fn new(alloc: Global, globs: &str) -> Result<Plain, AllocError> {
        let mut parsed = Vec::new(alloc);
        for glob in globs.split(' ') {
            parsed.push(tokens_of(alloc, glob)?)?;
        }
        Ok(Plain {
            globs: parsed,
            text: Vec::new(alloc),
            states: Vec::new(alloc),
        })
    }

    /// Whether one of the globs matches the whole text.
    pub(crate) fn matches(&mut self, text: &str) -> Result<bool, Error> {
        self.text.clear();
        for c in text.chars() {
            self.text.push(c)?;
        }
        for tokens in &self.globs {
            if is_match(tokens, &self.text, &mut self.states)? {
                return Ok(true);
            }
        }
        Ok(false)
    }
}

/// Whether the tokens match the whole text, by at most `LIMIT` of them.
fn is_match(tokens: &[Token], text: &[char], states: &mut Vec<State>) -> Result<bool, AllocError> {
    states.clear();
    let mut here = Some(State { token: 0, at: 0 });
    for _ in 0..LIMIT {
        let state = match here {
            Some(state) => state,
            None => match states.pop() {
                Some(state) => state,
                None => return Ok(false),
            },
        };
        here = match tokens.get(state.token) {
            Some(token) => step(token, state, text, states)?,
            None if state.at >= text.len() => return Ok(true),
            None => None,
        };
    }
    Ok(false)
}

/// What to try next, if the token goes on from there; the other ways are put by.
fn step(
    token: &Token,
    state: State,
    text: &[char],
    states: &mut Vec<State>,
) -> Result<Option<State>, AllocError> {
    let State { token: number, at } = state;
    let next = number.saturating_add(1);
    let found = text.get(at).copied();
    let past = at.saturating_add(1);
    let goes_on = match token {
        Token::Literal(c) => found == Some(*c),
        Token::Any => found.is_some_and(|c| c != '/'),
        Token::Class { negated, ranges } => {
            found.is_some_and(|c| ranges.iter().any(|range| range.0 <= c && c <= range.1)
                != *negated)
        }
        Token::Star => {
            if found.is_some_and(|c| c != '/') {
                states.push(State {
                    token: number,
                    at: past,
                })?;
            }
            return Ok(Some(State { token: next, at }));
        }
        Token::Dirs => {
            if let Some(after) = after_slash(text, at) {
                states.push(State {
                    token: number,
                    at: after,
                })?;
            }
            return Ok(Some(State { token: next, at }));
        }
        Token::All => return Ok(Some(State {
            token: next,
            at: text.len(),
        })),
    };
    if goes_on {
        Ok(Some(State {
            token: next,
            at: past,
        }))
    } else {
        Ok(None)
    }
}

/// The place after the first slash from here on.
fn after_slash(text: &[char], at: usize) -> Option<usize> {
    for i in at..text.len() {
        if text[i] == '/' {
            return Some(i.saturating_add(1));
        }
    }
    None
}
