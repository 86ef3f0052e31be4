//! What a builder reads, over a tree of which one call is refused.
use crate::builders::tree;
use crate::trees::at_home;
use answers::Refusing;
use ignore::files::{Env, Files, Refusal};
use ignore::{Error, Fault, WalkBuilder};
use std::alloc::Global;
use std::cell::Cell;
use std::test::Fail;

/// How many matchers a builder makes.
fn matcher_count<F: Files>(builder: &WalkBuilder, files: &F, env: &Env) -> Result<usize, Error> {
    Ok(builder.build_matchers(files, env)?.len())
}

/// The same of a builder to which a file of rules is added.
fn count<F: Files>(alloc: Global, files: &F, env: &Env) -> Result<usize, Error> {
    let mut builder = WalkBuilder::new(alloc, "/t")?;
    builder.add_ignore(files, env, "/t/.ignore")?;
    matcher_count(&builder, files, env)
}

/// What becomes of it where the call with this number is refused, and whether that call was made.
fn refused(alloc: Global, refusal: Refusal, turn: u64) -> Result<(&'static str, bool), Fail> {
    let env = at_home(alloc)?;
    let tree = tree(alloc)?;
    let files = Refusing {
        tree: &tree,
        refusal,
        turn: Cell::new(turn),
    };
    let outcome = match count(alloc, &files, &env) {
        Ok(1) => "a matcher",
        Err(Error::Memory) => "out of memory",
        _ => "anything else",
    };
    Ok((outcome, files.turn.get() == 0))
}

/// The file that is added is read first. Each call that is made is refused in turn, and at last
/// none is.
#[test]
fn each_call_out_of_memory(rt: HostRuntime) -> Result<(), Fail> {
    let mut calls = 0u64;
    for turn in 1..20u64 {
        let (outcome, made) = refused(rt.alloc(), Refusal::Memory, turn)?;
        let wanted = if made { "out of memory" } else { "a matcher" };
        assert!(rt; outcome == wanted, "{turn}: {outcome}");
        if made {
            calls = turn;
        }
    }
    assert!(rt; calls > 2 && calls < 19, "{calls}");
    Ok(())
}

/// A fault is no error of the builder.
#[test]
fn each_call_with_a_fault(rt: HostRuntime) -> Result<(), Fail> {
    let refusal = Refusal::Fault(Fault::PermissionDenied);
    for turn in 1..20u64 {
        let (outcome, _) = refused(rt.alloc(), refusal, turn)?;
        assert!(rt; outcome == "a matcher", "{turn}: {outcome}");
    }
    Ok(())
}
