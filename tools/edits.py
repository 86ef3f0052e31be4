"""The mutants in the edit files of the crates, and rounds of them.

`tools/mutants` says what a mutant is, and tries them.
"""
import functools
import os
import re

from repo import files_of, read
from sources import FUNCTION

# Where a crate's mutants lie.
EDITS = ("must-fail", "mutants")
# The most mutants of a round. A check costs some seconds however few they are, and memory for each.
ROUND = 20


# Mutants


ITEM = re.compile(r"impl\b|(pub(\([^)]*\))? )?(unsafe )?(trait|mod)\b")
CYCLE = re.compile(r" *#\[cycle\((\w+)\)\]")


class Body:
    """Where the lines of a function's body stand in a file, from 0 on, and whose they are."""

    def __init__(self, name, first, end, cycle):
        self.name, self.first, self.end, self.cycle = name, first, end, cycle


def bodies(text):
    """The bodies of the functions in a file that is laid out as `rt fmt` does. A body that isn't
    found counts as no body, so that a change in it counts as one of the contract."""
    lines = text.split("\n")
    found, at = [], 0
    while at < len(lines):
        head = FUNCTION.match(lines[at])
        opened = opening(lines, at, head[1]) if head else None
        if opened is None:
            at += 1
            continue
        end = next((it for it in range(opened, len(lines)) if lines[it] == f"{head[1]}}}"), None)
        if end is None:
            break
        found.append(Body(head[2], opened + 1, end, cycle_of(lines, at)))
        at = end + 1
    return found


def opening(lines, at, indent):
    """The line on which the body of the function opens whose first line is the one at `at`."""
    for number in range(at, len(lines)):
        line = lines[number]
        is_last = number == at or line.startswith(f"{indent})") or line.startswith(f"{indent}where")
        if line == f"{indent}{{" or is_last and line.endswith("{"):
            return number
        if line.endswith(";") or number > at and FUNCTION.match(line):
            return None
    return None


def cycle_of(lines, at):
    """The name of the recursion that the function belongs to, by the attributes above it."""
    while at > 0 and lines[at - 1].strip().startswith(("#[", "//")):
        at -= 1
        if CYCLE.match(lines[at]):
            return CYCLE.match(lines[at])[1]
    return None


def face(text):
    """All of a file but the bodies of its functions and its comments."""
    lines = text.split("\n")
    for body in bodies(text):
        lines[body.first : body.end] = [None] * (body.end - body.first)
    return [it for it in lines if it is not None and not it.strip().startswith("//")]


class Mutant:
    """An edit file, the function that must be rejected, and what the edit touches."""

    def __init__(self, crate, file):
        self.crate, self.file = crate, file
        self.name = f"{crate.name}/{os.path.basename(file)[: -len('.edit')]}"
        self.rejects, self.pairs = None, []
        # The functions (or cycles of them) that it touches, and whether it touches bodies alone.
        self.touches, self.is_alone = set(), False
        self.fault = self.read() or self.place()

    def read(self):
        """Reads the file, and returns what is wrong with it, if something is."""
        path = old = None
        for line in read(self.file).split("\n"):
            key, _, value = line.partition(":")
            value = value.removeprefix(" ")
            if key == "rejects" and self.rejects is None:
                self.rejects = value.strip().removeprefix(f"{self.crate.name}::")
            elif key == "file":
                path = value.strip()
            elif key == "old" and path and value:
                old = value
            elif key == "new" and old:
                self.pairs.append((path, old, value))
                old = None
            elif line.strip():
                return f"its line `{line}` isn't one of a mutant, or stands in the wrong place"
        if not self.pairs:
            return "it has no `file`, `old` and `new`"
        if not self.rejects:
            return "it has no line `rejects: FUNCTION`"
        if any(not path.startswith("src/") for path, _, _ in self.pairs):
            return "it edits a file that isn't below src/, which shows nothing"
        return None

    def place(self):
        """Finds what the edit touches, and returns what is wrong with it, if something is."""
        before, after = {}, {}
        for path, old, new in self.pairs:
            if path not in before:
                try:
                    before[path] = after[path] = read(f"{self.crate.folder}/{path}")
                except OSError:
                    return f"there is no file {path}"
            count = after[path].count(old)
            if count != 1:
                return f"its `old` text stands {count} times in {path}, and not once: {old.strip()}"
            line = after[path].count("\n", 0, after[path].index(old))
            for body in bodies(after[path]):
                if body.first <= line < body.end:
                    self.touches.add((path, body.cycle or f"{body.name} at {body.first}"))
                    self.is_alone |= body.name not in self.rejects.split("::")
            after[path] = after[path].replace(old, new)
        if before == after:
            return "it changes nothing"
        last = self.rejects.split("::")[-1]
        if last not in functions_in(self.crate):
            return f"the crate has no function {last}, which it rejects"
        self.is_alone |= not self.touches
        self.is_alone |= any(face(before[it]) != face(after[it]) for it in before)
        return None

    def function(self):
        """The name of the function that must be rejected, as a check prints it."""
        return f"{self.crate.name}::{self.rejects}"

    def proves_in(self, file):
        """Whether this is a file of the proof of the mutant's function, or of its recursion."""
        *above, last = self.rejects.split("::")
        if any(f"/+{it}/" in file for _, it in self.touches):
            return True
        folder = "/".join(["proofs", *above])
        return file.startswith((f"{folder}/{last}/", f"{folder}/+{last}/"))

    def applied(self, texts):
        """The texts of the crate's files with this edit too, or None where it doesn't fit."""
        texts = dict(texts)
        for path, old, new in self.pairs:
            text = texts.get(path) or read(f"{self.crate.folder}/{path}")
            if text.count(old) != 1:
                return None
            texts[path] = text.replace(old, new)
        return texts


@functools.cache
def functions_in(crate):
    """The names of the functions in the sources of a crate."""
    sources = [read(f"{crate.folder}/{it}") for it in files_of(crate, "src") if it.endswith(".rt")]
    return {it for text in sources for it in re.findall(r"\bfn (\w+)", text)}


def mutants_of(crate):
    """The crate's mutants, by name."""
    found = []
    for folder in EDITS:
        at = f"{crate.folder}/{folder}"
        names = sorted(os.listdir(at)) if os.path.isdir(at) else []
        found += [Mutant(crate, f"{at}/{it}") for it in names if it.endswith(".edit")]
    return sorted(found, key=lambda it: it.name)


def rounds_of(mutants):
    """Parts mutants into rounds of about one size, in each of which no two touch one function."""
    alone = [it for it in mutants if it.is_alone]
    others = [it for it in mutants if not it.is_alone]
    touched = [one for it in others for one in it.touches]
    most = max([touched.count(it) for it in touched], default=0)
    rounds = [[] for _ in range(max(most, -(-len(others) // ROUND)))]
    for mutant in sorted(others, key=lambda it: -max(map(touched.count, it.touches))):
        for it in sorted(rounds, key=len):
            if not any(mutant.touches & other.touches for other in it) and edited([*it, mutant]):
                it.append(mutant)
                break
        else:
            rounds.append([mutant])
    return [it for it in rounds if it] + [[it] for it in alone]


def edited(mutants):
    """The texts of the files that these change together, or None where they don't fit."""
    texts = {}
    for it in mutants:
        texts = it.applied(texts)
        if texts is None:
            return None
    return texts
