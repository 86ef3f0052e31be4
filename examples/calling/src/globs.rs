//! Globs by themselves.

use ignore::Error;
use ignore::glob::{GlobFault, Options, Pattern, PatternError, PatternSet};
use std::alloc::Global;

/// Says whether a glob matches a text, or what is wrong with the glob.
fn matches(rt: &HostRuntime, glob: &str, text: &str) -> anyhow::Result<()> {
    let options = Options {
        case_insensitive: true,
        allow_unclosed_class: false,
    };
    match Pattern::parse(rt.alloc(), glob, options) {
        Ok(pattern) => println!(rt; "{glob} {text} {}", pattern.matches(text)?)?,
        Err(PatternError::Fault(GlobFault::UnclosedClass)) => println!(rt;
            "{glob}: a class is open"
        )?,
        Err(error) => println!(rt; "{glob}: {error}")?,
    }
    Ok(())
}

/// The last of some globs that matches a text: a set looks many up at once.
fn last_of(alloc: Global, globs: &[&str], text: &str) -> anyhow::Result<Option<usize>> {
    let mut patterns = Vec::new(alloc);
    for glob in globs {
        let options = Options {
            case_insensitive: false,
            allow_unclosed_class: false,
        };
        patterns.push((Pattern::parse(alloc, glob, options)?, false))?;
    }
    let set = PatternSet::new(patterns)?;
    Ok(set.last_match(text, false)?)
}

pub fn ask(rt: &HostRuntime) -> anyhow::Result<()> {
    matches(rt, "*.{c,h}", "MAIN.C")?;
    matches(rt, "[a", "a")?;
    let last = last_of(rt.alloc(), &["*.o", "**/build/**", "*.c"], "x/build/a.c")?;
    println!(rt; "the last glob: {last:?}")?;
    Ok(())
}
