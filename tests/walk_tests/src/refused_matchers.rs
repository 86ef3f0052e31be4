//! A matcher of single paths over a tree of which one call is refused: what it answers, and why.
use crate::trees::tree_of;
use answers::Refusing;
use ignore_base::{Error, Fault};
use ignore_dir::{IncrementalMatch, Outside, Settings};
use ignore_files::{Files, Refusal};
use ignore_query::{Explanation, IncrementalIgnore};
use std::alloc::Global;
use std::cell::Cell;

/// A root in a repository, below which `p` has rules, of which one line is invalid.
const TREE: &[&str] = &[
    "/w",
    "/w/.git",
    "/w/.git/info",
    "/w/.git/info/exclude=foo\n",
    "/w/t",
    "/w/t/p",
    "/w/t/p/.ignore=!foo\n{\n",
    "/w/t/p/q",
    "/w/t/p/q/foo=",
];

/// A matcher of that root that keeps nothing yet, and asks for the sizes of files.
fn matcher(alloc: Global) -> anyhow::Result<IncrementalIgnore> {
    let root = String::from_str(alloc, "/w/t")?;
    let mut settings = Settings::standard(alloc);
    settings.max_filesize = Some(10);
    Ok(IncrementalIgnore::new(settings, Outside::empty(alloc), root, None))
}

/// What a matcher answers for a file, as a word.
fn answer<F: Files>(matcher: &mut IncrementalIgnore, files: &F) -> &'static str {
    match matcher.matched_with_errors(files, "p/q/foo", false) {
        Ok((found, _)) => word(found),
        Err(Error::Memory) => "out of memory",
        Err(_) => "another error",
    }
}

fn word(found: IncrementalMatch) -> &'static str {
    if found.is_whitelist() {
        "whitelist"
    } else {
        "another answer"
    }
}

/// What a matcher answers for a file with the reason, as a text.
fn reason<F: Files>(
    alloc: Global,
    matcher: &mut IncrementalIgnore,
    files: &F,
) -> anyhow::Result<String> {
    match matcher.explain(files, "p/q/foo", false) {
        Ok((explained, _error)) => shown(alloc, &explained),
        Err(error) => Ok(format!(in alloc; "({error})")?),
    }
}

fn shown(alloc: Global, explained: &Explanation) -> anyhow::Result<String> {
    let answer = word(explained.answer);
    Ok(format!(in alloc; "{answer}: {explained}")?)
}

/// What a new matcher answers where the call with this number is refused, what it answers then over
/// the tree, and whether that call was made.
fn refused(
    alloc: Global,
    refusal: Refusal,
    turn: u64,
) -> anyhow::Result<(&'static str, &'static str, bool)> {
    let tree = tree_of(alloc, TREE)?;
    let files = Refusing {
        tree: &tree,
        refusal,
        turn: Cell::new(turn),
    };
    let (first, second) = both_answers(alloc, &files)?;
    Ok((first, second, files.turn.get() == 0))
}

fn both_answers(
    alloc: Global,
    files: &Refusing<'_>,
) -> anyhow::Result<(&'static str, &'static str)> {
    let mut matcher = matcher(alloc)?;
    let first = answer(&mut matcher, files);
    Ok((first, answer(&mut matcher, files.tree)))
}

/// Each call that is made is refused in turn, and at last none is.
#[test]
fn each_call_out_of_memory(rt: HostRuntime) -> anyhow::Result<()> {
    let mut calls = 0u64;
    for turn in 1..100u64 {
        let (first, second, made) = refused(rt.alloc(), Refusal::Memory, turn)?;
        let wanted = if made { "out of memory" } else { "whitelist" };
        assert!(rt;
            first == wanted && second == "whitelist",
            "{turn}: {first}, {second}"
        );
        if made {
            calls = turn;
        }
    }
    assert!(rt; calls > 10 && calls < 99, "{calls}");
    Ok(())
}

/// A fault is no error of the matcher, and may change its answer.
#[test]
fn each_call_with_a_fault(rt: HostRuntime) -> anyhow::Result<()> {
    let refusal = Refusal::Fault(Fault::PermissionDenied);
    for turn in 1..100u64 {
        let (first, _, made) = refused(rt.alloc(), refusal, turn)?;
        assert!(rt;
            first == "whitelist" || made && first == "another answer",
            "{turn}: {first}"
        );
    }
    Ok(())
}

/// The rule that decides on that file, where no call is refused.
const WHY: &str = "whitelist: /w/t/p/.ignore:1:!foo";

/// The reasons of a new matcher where the call with this number is refused, and then over the tree,
/// and whether that call was made.
fn refused_reasons(
    alloc: Global,
    refusal: Refusal,
    turn: u64,
) -> anyhow::Result<(String, String, bool)> {
    let tree = tree_of(alloc, TREE)?;
    let files = Refusing {
        tree: &tree,
        refusal,
        turn: Cell::new(turn),
    };
    let (first, second) = reasons(alloc, &files)?;
    Ok((first, second, files.turn.get() == 0))
}

fn reasons(alloc: Global, files: &Refusing<'_>) -> anyhow::Result<(String, String)> {
    let mut matcher = matcher(alloc)?;
    both_reasons(alloc, &mut matcher, files)
}

fn both_reasons(
    alloc: Global,
    matcher: &mut IncrementalIgnore,
    files: &Refusing<'_>,
) -> anyhow::Result<(String, String)> {
    let first = reason(alloc, matcher, files)?;
    Ok((first, reason(alloc, matcher, files.tree)?))
}

/// Each call of a question with its reason is refused in turn, and at last none is.
#[test]
fn each_call_of_a_reason_out_of_memory(rt: HostRuntime) -> anyhow::Result<()> {
    let mut calls = 0u64;
    for turn in 1..100u64 {
        let (first, second, made) = refused_reasons(rt.alloc(), Refusal::Memory, turn)?;
        let wanted = if made { "(out of memory)" } else { WHY };
        assert!(rt;
            first.as_str() == wanted && second.as_str() == WHY,
            "{turn}: {first}, {second}"
        );
        if made {
            calls = turn;
        }
    }
    assert!(rt; calls > 10 && calls < 99, "{calls}");
    Ok(())
}

/// A fault is no error of a question with its reason, which answers as one without.
#[test]
fn each_call_of_a_reason_with_a_fault(rt: HostRuntime) -> anyhow::Result<()> {
    let refusal = Refusal::Fault(Fault::PermissionDenied);
    for turn in 1..100u64 {
        let (first, _, made) = refused(rt.alloc(), refusal, turn)?;
        let (why, _, made_too) = refused_reasons(rt.alloc(), refusal, turn)?;
        let wanted = if first == "whitelist" { WHY } else { first };
        assert!(rt;
            made == made_too && why.as_str().starts_with(wanted),
            "{turn}: {first}, {why}"
        );
    }
    Ok(())
}
