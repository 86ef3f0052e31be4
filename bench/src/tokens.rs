//! Globs without braces, parsed for the plain matcher.

use std::alloc::{AllocError, Global};

/// A token of a glob. `/**/` is a slash and then `Dirs`, and `/**` a slash and then `All`.
#[derive(Drop)]
pub(crate) enum Token {
    Literal(char),
    /// One character but a slash.
    Any,
    /// Characters but slashes, any number.
    Star,
    /// Nothing, or characters up to a slash and with it.
    Dirs,
    /// Characters, any number.
    All,
    /// One character that is in one of the ranges, or in none of them.
    Class {
        negated: bool,
        ranges: Vec<(char, char)>,
    },
}

/// The tokens of a glob without braces and backslashes.
pub(crate) fn tokens_of(alloc: Global, glob: &str) -> Result<Vec<Token>, AllocError> {
    let mut tokens = Vec::new(alloc);
    let mut rest = glob;
    for _ in 0..glob.len() {
        let Some((token, more)) = first_token(alloc, rest)? else {
            break;
        };
        tokens.push(token)?;
        rest = more;
    }
    Ok(tokens)
}

/// The first token of a glob, and what follows it.
fn first_token(alloc: Global, glob: &str) -> Result<Option<(Token, &str)>, AllocError> {
    if let Some(more) = glob.strip_prefix("**/") {
        return Ok(Some((Token::Dirs, more)));
    }
    if glob == "**" {
        return Ok(Some((Token::All, "")));
    }
    if let Some(inside) = glob.strip_prefix('[') {
        if let Some((members, more)) = inside.split_once(']') {
            return Ok(Some((class_of(alloc, members)?, more)));
        }
    }
    let mut chars = glob.chars();
    let token = match chars.next() {
        None => return Ok(None),
        Some('*') => Token::Star,
        Some('?') => Token::Any,
        Some(c) => Token::Literal(c),
    };
    Ok(Some((token, chars.as_str())))
}

/// The class of these members, the first of which isn't a closing bracket.
fn class_of(alloc: Global, members: &str) -> Result<Token, AllocError> {
    let negated = members.starts_with('!');
    let mut ranges: Vec<(char, char)> = Vec::new(alloc);
    let mut is_range = false;
    for c in members.chars().skip(usize::from(negated)) {
        if is_range {
            if let Some(last) = ranges.last_mut() {
                last.1 = c;
            }
            is_range = false;
        } else if c == '-' && !ranges.is_empty() {
            is_range = true;
        } else {
            ranges.push((c, c))?;
        }
    }
    Ok(Token::Class { negated, ranges })
}
