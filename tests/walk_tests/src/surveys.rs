//! Surveys of trees in memory, also where one call of the tree is refused.
ghost use Rattle.std.specs.Iterator.{IsFinite};

use crate::trees::tree_of;
use answers::Refusing;
use ignore_base::Fault;
use ignore_dir::{Outside, Settings};
use ignore_files::{Files, MemoryTree, Refusal};
use ignore_query::IncrementalIgnore;
use ignore_survey::{Item, Survey};
use std::alloc::{AllocError, Global};
use std::cell::Cell;

/// An item as text: the path of an entry and the reason, or an error in brackets.
fn text_of(alloc: Global, item: &Item) -> Result<String, AllocError> {
    match item {
        Ok(entry) => {
            let (path, why) = (entry.path.as_str(), &entry.explanation);
            format!(in alloc; "{path}: {why}")
        }
        Err(error) => format!(in alloc; "({error})"),
    }
}

/// A text to which an item is appended, where there was memory for it so far.
fn with(
    alloc: Global,
    text: Result<String, AllocError>,
    item: &Item,
) -> Result<String, AllocError> {
    let mut text = text?;
    let line = text_of(alloc, item)?;
    text.push_str(line.as_str())?;
    text.push_str("; ")?;
    Ok(text)
}

/// The items of a survey.
fn items_of<I: Iterator<Item = Item> + Drop>(alloc: Global, survey: I) -> anyhow::Result<String>
    requires ends { I.can_next survey × IsFinite (I.remaining survey) }
{
    let mut text = Ok(String::new(alloc));
    for item in survey {
        text = with(alloc, text, &item);
    }
    Ok(text?)
}

/// A survey of a root by the settings at first, with at most so many items.
fn survey_of<'a, F: Files>(
    alloc: Global,
    files: &'a F,
    root: &str,
    limit: u64,
) -> anyhow::Result<Survey<'a, F>> {
    let root = String::from_str(alloc, root)?;
    let settings = Settings::standard(alloc);
    let matcher = IncrementalIgnore::new(settings, Outside::empty(alloc), root, None);
    let mut survey = Survey::new(alloc, files, matcher)?;
    survey.limit(limit);
    Ok(survey)
}

/// A tree in which a rule ignores a directory, and another one whitelists below it in vain.
fn tree(alloc: Global) -> anyhow::Result<MemoryTree> {
    tree_of(
        alloc,
        &[
            "/t",
            "/t/.ignore=b\n*.o",
            "/t/a",
            "/t/a/.ignore=!x.o",
            "/t/a/x.o=",
            "/t/b",
            "/t/b/k=",
            "/t/c=",
            "/t/l>a",
        ],
    )
}

/// The items of a survey of a root in that tree.
fn surveyed(alloc: Global, root: &str, limit: u64) -> anyhow::Result<String> {
    let tree = tree(alloc)?;
    let survey = survey_of(alloc, &tree, root, limit)?;
    items_of(alloc, survey)
}

/// All items of that survey of `/t`.
const ITEMS: &str =
    ".ignore: hidden; a: no rule; a/.ignore: hidden; a/x.o: /t/a/.ignore:1:!x.o; b: /t/.ignore:1:b; c: no rule; l: no rule; ";

#[test]
fn parents_come_first(rt: HostRuntime) -> anyhow::Result<()> {
    let text = surveyed(rt.alloc(), "/t", 100)?;
    assert_eq!(rt; text.as_str(), ITEMS);
    Ok(())
}

#[test]
fn one_item_too_few(rt: HostRuntime) -> anyhow::Result<()> {
    let text = surveyed(rt.alloc(), "/t/a", 1)?;
    assert_eq!(rt; text.as_str(), ".ignore: hidden; (step limit reached); ");
    Ok(())
}

#[test]
fn items_enough(rt: HostRuntime) -> anyhow::Result<()> {
    let text = surveyed(rt.alloc(), "/t/a", 2)?;
    assert_eq!(rt;
        text.as_str(),
        ".ignore: hidden; x.o: /t/a/.ignore:1:!x.o; "
    );
    Ok(())
}

#[test]
fn a_root_that_is_a_file(rt: HostRuntime) -> anyhow::Result<()> {
    let text = surveyed(rt.alloc(), "/t/c", 100)?;
    assert_eq!(rt; text.as_str(), "(/t/c: not a directory); ");
    Ok(())
}

#[test]
fn standard_input_has_nothing_below(rt: HostRuntime) -> anyhow::Result<()> {
    let text = surveyed(rt.alloc(), "-", 100)?;
    assert_eq!(rt; text.as_str(), "");
    Ok(())
}

/// The items of that survey where the call with this number is refused, and whether it was made.
fn refused(alloc: Global, refusal: Refusal, turn: u64) -> anyhow::Result<(String, bool)> {
    let tree = tree(alloc)?;
    let files = Refusing {
        tree: &tree,
        refusal,
        turn: Cell::new(turn),
    };
    let survey = survey_of(alloc, &files, "/t", 100)?;
    let text = items_of(alloc, survey)?;
    Ok((text, files.turn.get() == 0))
}

/// Whether a survey that was out of memory gave a beginning of all items and then that.
fn is_beginning(text: &str) -> bool {
    match text.strip_suffix("(out of memory); ") {
        Some(items) => ITEMS.starts_with(items),
        None => false,
    }
}

/// Each call that is made is refused in turn, and at last none is.
#[test]
fn each_call_out_of_memory(rt: HostRuntime) -> anyhow::Result<()> {
    let mut calls = 0u64;
    for turn in 1..100u64 {
        let (text, made) = refused(rt.alloc(), Refusal::Memory, turn)?;
        let is_right = if made {
            is_beginning(text.as_str())
        } else {
            text.as_str() == ITEMS
        };
        assert!(rt; is_right, "{turn}: {text}");
        if made {
            calls = turn;
        }
    }
    assert!(rt; calls > 10 && calls < 99, "{calls}");
    Ok(())
}

/// A fault is an item in the place of what can't be listed, or leaves out rules; it ends no survey.
#[test]
fn each_call_with_a_fault(rt: HostRuntime) -> anyhow::Result<()> {
    let refusal = Refusal::Fault(Fault::PermissionDenied);
    for turn in 1..100u64 {
        let (text, made) = refused(rt.alloc(), refusal, turn)?;
        let text = text.as_str();
        let is_right = text == ITEMS
            || made && (text == "(/t: permission denied); " || text.ends_with("l: no rule; "));
        assert!(rt; is_right, "{turn}: {text}");
    }
    Ok(())
}
