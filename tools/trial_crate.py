"""A crate of which the verdicts are known, by which it is seen that those of a kit are read as meant:
that a mutant which is rejected by a hand-written proof, say, never counts as one by a goal.
"""
import os
import tempfile

from edits import edited, mutants_of
from repo import Crate
from verdicts import ACCEPTED, BY_GOAL, BY_PROOF, HELD, NAMES

SOURCE = """\
//! Functions whose verdicts are known.
#![tactic(auto)]
ghost use Rattle.std.specs.Prelude.{◌≡◌, ◌≤◌};

/// The first of two numbers.
pub fn first(x: u32, y: u32) -> u32
    ensures { result ≡ x }
{
    if y > 100 { x } else { x }
}

/// The same, by a call.
pub fn asked(x: u32) -> u32
    ensures { result ≡ x }
{
    first(x, 7)
}

/// A number that is no smaller.
pub fn raised(x: u32) -> u32
    ensures { x ≤ result }
{
    x.saturating_add(0)
}

/// The first of two numbers, by an answer that is written by hand.
pub fn shown(x: u32, y: u32) -> u32
    ensures { result ≡ x }
{
    if y > 200 { x } else { x }
}

/// The number, counted.
pub fn counted(n: u32) -> u32
    ensures { result ≡ n }
{
    let mut count = 0;
    while count < n {
        count += 1;
    }
    count
}
"""

PROOFS = {
    "shown/Answers.antt": """\
use Rattle.std.proofs.Common.{refl}
use Rattle.trial_crate.proofs.shown.Goals as goal

pub returns-else-y-gt200 : goal.returns-else-y-gt200
returns-else-y-gt200 c = refl
""",
    "counted/Invariants.antt": """\
use Rattle.std.proofs.Common.{◌-◌, ◌≤◌, ℕ}
use Rattle.trial_crate.proofs.counted.Given as goal

abbrev pub invariant-loop-count : goal.invariant-loop-count
invariant-loop-count l = l.count ≤ l.fn.n

abbrev pub decreases-loop-count : goal.decreases-loop-count
decreases-loop-count l = l.n - l.count
""",
}

# The mutants, by the function that must be rejected: lines of its body, old and new, how a check of
# all of them at once judges it, and what that is.
MUTANTS = {
    "first": ([("if y > 100 { x } else { x }", "if y > 100 { x } else { y }")], BY_GOAL,
              "rejected by a goal of its contract"),
    "asked": ([("first(x, 7)", "first(x, 8)")], HELD,
              "held up by a function that it calls and that isn't proved"),
    "raised": ([("x.saturating_add(0)", "x.saturating_add(1)")], ACCEPTED, "proved"),
    "shown": ([("if y > 200 { x } else { x }", "if y > 200 { x } else { y }")], BY_PROOF,
              "rejected by an answer that no longer fits"),
    "counted": ([("let mut count = 0;", "let mut total = 0;"), ("while count < n", "while total < n"),
                 ("count += 1;", "total += 1;"), ("    count\n", "    total\n")], NAMES,
                "rejected for a name in its proof that is gone"),
}


def write(path, text):
    os.makedirs(os.path.dirname(path), exist_ok=True)
    with open(path, "w", encoding="utf-8") as it:
        it.write(text)


def made(room):
    """The crate, in a folder there."""
    crate = Crate("trial_crate", [])
    crate.folder = f"{room}/trial_crate"
    write(f"{crate.folder}/src/lib.rt", SOURCE)
    for name, text in PROOFS.items():
        write(f"{crate.folder}/proofs/{name}", text)
    for name, (pairs, _, _) in MUTANTS.items():
        lines = [f"rejects: {name}", "file: src/lib.rt"]
        for old, new in pairs:
            lines += [f"old: {old.rstrip()}", f"new: {new.rstrip()}"]
        write(f"{crate.folder}/mutants/{name}.edit", "\n".join([*lines, ""]))
    return crate


def misread(bench):
    """What of the crate's verdicts isn't read as meant, in a line each."""
    with tempfile.TemporaryDirectory() as room:
        crate, kept = made(room), f"{room}/kept"
        os.mkdir(kept)
        mutants = {it.rejects: it for it in mutants_of(crate)}
        unedited = bench.unedited(crate, kept, ())
        if not unedited.is_proved():
            return [f"the crate itself counts as not proved: {unedited.error()}"]
        outcome = bench.edited(crate, edited([*mutants.values()]), kept, "mutants", ())
    found = [f"{it.name}: {it.fault}" for it in mutants.values() if it.fault]
    for name, (_, wanted, what) in MUTANTS.items():
        judged, said = outcome.judge(mutants[name])
        if judged != wanted:
            found.append(f"`{name}` is {what}, and is taken for something else: {said}")
    return found
