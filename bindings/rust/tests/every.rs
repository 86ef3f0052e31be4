//! Rules over all paths: which of a list decide on nothing, and whether two lists say the same.
use ignore_proved::every::{Counted, Difference, Finding, Question, Said, Why, LIMIT};
use ignore_proved::gitignore::{Gitignore, GitignoreBuilder};
use ignore_proved::Error;
use std::path::{Path, PathBuf};

fn rules_of(lines: &[&str]) -> Gitignore {
    let mut builder = GitignoreBuilder::new("root").expect("memory");
    for line in lines {
        builder.add_line(None, line).expect("a valid line");
    }
    builder.build().expect("memory")
}

fn found_in(lines: &[&str]) -> Vec<Finding> {
    rules_of(lines).findings(LIMIT).expect("few states")
}

fn difference(before: &[&str], after: &[&str], counted: Counted) -> Option<Difference> {
    let (before, after) = (rules_of(before), rules_of(after));
    let found = before
        .difference(&after, counted, LIMIT)
        .expect("few states");
    let same = before.same_as(&after, counted, LIMIT).expect("few states");
    assert_eq!(same, found.is_none());
    found
}

#[test]
fn dead_rules_and_why() {
    let overruled = |rule, by: &[usize]| Finding {
        rule,
        why: Why::Overruled(by.to_vec()),
    };
    assert_eq!(found_in(&["a.o", "*.o"]), [overruled(0, &[1])]);
    assert_eq!(found_in(&["a*", "!a", "a?*"]), [overruled(0, &[1, 2])]);
    assert_eq!(
        found_in(&["*.o", ".."]),
        [Finding {
            rule: 1,
            why: Why::Unmatched
        }]
    );
    assert_eq!(found_in(&["*.o", "!keep.o", "build/"]), []);
    let rules = rules_of(&["*.o", "!*.o", "x"]);
    let dead = rules.dead(LIMIT).expect("few states");
    assert_eq!(
        dead.iter().map(|it| it.original()).collect::<Vec<_>>(),
        ["*.o"]
    );
    assert_eq!(rules.rule(3).expect("memory"), None);
}

#[test]
fn a_rule_in_an_ignored_folder() {
    let long = "é".repeat(1000);
    let lines = [format!("/{long}/"), format!("!/{long}/b/")];
    let found = found_in(&[&lines[0], &lines[1]]);
    assert_eq!((found.len(), found[0].rule), (1, 1));
    match &found[0].why {
        Why::ByFolders(example) => {
            assert_eq!(example.question.path, Path::new(&long).join("b"));
            assert!(example.question.is_dir);
            assert_eq!(example.folder, Path::new(&long));
            assert_eq!(example.rule, 0);
        }
        other => panic!("{other:?}"),
    }
}

#[test]
fn two_lists_that_say_the_same_or_not() {
    let verdicts = |before: &[&str], after: &[&str]| difference(before, after, Counted::Verdicts);
    assert_eq!(verdicts(&["*.o", "!*.o"], &["!*.o"]), None);
    assert_eq!(verdicts(&["a/", "!a/b"], &["a/"]), None);
    assert_eq!(difference(&["!a"], &[], Counted::Ignored), None);
    let found = verdicts(&["!a"], &[]).expect("a difference");
    assert_eq!(found.question.path, Path::new("a"));
    assert_eq!(
        (found.before, found.after),
        (Said::Whitelisted(0), Said::Nothing)
    );
    let found = verdicts(&["x", "a/"], &["x", "a/*", "!a/b"]).expect("a difference");
    assert_eq!(
        found,
        Difference {
            question: Question {
                path: PathBuf::from("a"),
                is_dir: true
            },
            before: Said::Ignored(1),
            after: Said::Nothing,
        }
    );
    let rules = rules_of(&["a"]);
    assert!(rules
        .same_as(&rules, Counted::Verdicts, 0)
        .expect("no search"));
}

#[test]
fn more_states_than_the_limit() {
    let (rules, other) = (rules_of(&["a*b", "*c"]), rules_of(&["*c"]));
    assert!(matches!(rules.findings(2), Err(Error::TooLarge)));
    let found = rules.difference(&other, Counted::Verdicts, 3);
    assert!(matches!(found, Err(Error::TooLarge)));
}
