#!/usr/bin/env python3
"""Asks random lines about random paths, by `ignore_proved.pathspec`, by the package `pathspec`, and
by git, which is the referee. Of each of the two classes it prints how often they differ from git
and from one another, and of what kind these differences are, each with an example of the fewest
lines and git's answer. Wants `git`, and `pathspec` on the path of modules.
usage: beside_pathspec.py [QUESTIONS [SEED]]
"""
from __future__ import annotations

import collections
import os
import random
import re
import subprocess
import sys
import tempfile
import warnings
from typing import Any, Callable, Dict, List, Optional, Tuple

import pathspec

from ignore_proved import pathspec as ours

NAMES = ["a", "b", "c", "ab", "a.b", "x.o", ".h"]
PIECES = [
    "a", "b", "c", "ab", "a.b", "x.o", ".h", "a", "b", "c", "ab", "a.b", "x.o", ".h", "*", "*",
    "**", "?", "*.o", "a*", "*b", "[ab]", "[!a]", "[a-c]", "a?", "***",
]
ODD = [
    "{a,b}", "[z-a]", "[", "a[", "\\a", "\\*", "a\\", "[]a]", "[^a]", "}", "a ", "a\\ ", "#a",
    "\\#a", "!", "\\!a", "/", "//", "a//b", "[[:alpha:]]", "[a/b]", " a", "a\t", "[\\]]", "x,y",
    "[!]b]", "[]-a]", "[+--]", "[--0]", "[!-a]", "[a-c-]", "[\\!]", "[\\^\\!]", "[]!^-]", "[!z-a]",
    "a[[:bad:]]", "[[:a]", "[[:]", "a\\\\/", "a\\/", "*[.-0]*",
]
PATHS = 20
#: What makes a spec of lines.
Make = Callable[[List[str]], Any]


def line_of(chance: random.Random) -> str:
    """A random line."""
    if chance.random() < 0.08:
        return chance.choice(["", "!"]) + chance.choice(ODD)
    pieces = [chance.choice(PIECES) for _ in range(chance.choice([1, 1, 1, 2, 2, 3]))]
    before = chance.choice(["", "", "!"]) + chance.choice(["", "", "/"])
    return before + "/".join(pieces) + chance.choice(["", "", "/"])


def path_of(chance: random.Random) -> str:
    """A random path, which is a file's."""
    return "/".join(chance.choice(NAMES) for _ in range(chance.choice([1, 2, 2, 3, 4])))


class Referee:
    """git, in an empty repository."""

    def __init__(self, folder: str) -> None:
        self.folder = folder
        own = {"HOME": folder, "XDG_CONFIG_HOME": folder, "GIT_CONFIG_NOSYSTEM": "1"}
        self.env = {**os.environ, **own}
        subprocess.run(["git", "init", "-q", folder], check=True, env=self.env)

    def ignored(self, lines: List[str], paths: List[str]) -> List[bool]:
        """Whether git ignores each path by these lines."""
        with open(f"{self.folder}/.gitignore", "w", encoding="utf-8") as file:
            file.write("".join(f"{line}\n" for line in lines))
        words = ["git", "-C", self.folder, "check-ignore", "--no-index", "-z", "--stdin"]
        given = "".join(f"{path}\0" for path in paths)
        ran = subprocess.run(words, input=given, text=True, stdout=subprocess.PIPE, env=self.env,
                             check=False)
        found = set(ran.stdout.split("\0"))
        return [path in found for path in paths]


def asked(make: Make, lines: List[str], paths: List[str]) -> Optional[List[bool]]:
    """The answers of a kind of specs; none where it takes the lines not."""
    try:
        spec = make(lines)
        return [spec.match_file(path) for path in paths]
    except (ValueError, re.error):
        return None


KINDS: Dict[str, Tuple[Make, Make]] = {
    "PathSpec": (
        lambda lines: ours.PathSpec.from_lines("gitwildmatch", lines),
        lambda lines: pathspec.PathSpec.from_lines("gitwildmatch", lines),
    ),
    "GitIgnoreSpec": (ours.GitIgnoreSpec.from_lines, pathspec.GitIgnoreSpec.from_lines),
}


def fewest(kind: str, lines: List[str], path: str) -> List[str]:
    """The fewest of the lines by which the two differ about a path."""
    here, there = KINDS[kind]
    for at in range(len(lines) - 1, -1, -1):
        fewer = lines[:at] + lines[at + 1:]
        found = asked(there, fewer, [path])
        if found is not None and found != asked(here, fewer, [path]):
            lines = fewer
    return lines


#: Of what kind a difference is: the first whose expression is found in one of the fewest lines.
SORTS = [
    ("three stars or more", r"\*{3}"),
    ("white space at an end", r"^!?\s|\s$"),
    ("a class with `^`, a kind, a backslash or a `/`", r"\[\^|\[:|\[[^]]*[\\/]"),
    ("a range that has `/`, or none that is valid", r"\[.*(\.-0|\+--|--0|z-a)"),
    ("a `!` and an ignored folder", r"^!"),
    ("`**/` at the end", r"\*\*/$"),
    ("else", r""),
]


def sort_of(lines: List[str]) -> str:
    """Of what kind a difference is that these lines show."""
    return next(what for what, found in SORTS if any(re.search(found, line) for line in lines))


#: The fewest lines of a difference, its path, the answer here and git's.
Row = Tuple[List[str], str, bool, bool]


class Tally:
    """The differences of a class here from the one of `pathspec`, and of both from git."""

    def __init__(self, kind: str) -> None:
        self.kind, self.here, self.there, self.raised = kind, 0, 0, 0
        self.sorts: Dict[str, List[Row]] = collections.defaultdict(list)

    def ask(self, lines: List[str], paths: List[str], git: List[bool]) -> None:
        """Asks both, and keeps their differences."""
        here, there = (asked(make, lines, paths) for make in KINDS[self.kind])
        assert here is not None, f"{lines} can't be read here"
        self.here += sum(own != its for own, its in zip(here, git))
        if there is None:
            self.raised += 1
            return
        self.there += sum(own != its for own, its in zip(there, git))
        for path, own, other, its in zip(paths, here, there, git):
            if own != other:
                few = fewest(self.kind, lines, path)
                self.sorts[sort_of(few)].append((few, path, own, its))

    def print(self, count: int) -> None:
        """Prints what was kept."""
        rows = [row for found in self.sorts.values() for row in found]
        sides = sum(own == its for _, _, own, its in rows)
        print(f"{self.kind}: of {count} answers {self.here} here and {self.there} of pathspec's "
              f"differ from git's, {len(rows)} from one another: git is with {sides} here; "
              f"pathspec raises of {self.raised} of {count // PATHS} lists")
        for what, found in sorted(self.sorts.items(), key=lambda it: -len(it[1])):
            sides = sum(own == its for _, _, own, its in found)
            few, path, own, its = min(found, key=lambda it: (len(it[0]), len(str(it[:2])), it))
            print(f"  {len(found)} by {what}, git with {sides} here: {few} of {path}: "
                  f"{own} here, {not own} there, git {its}")


def main(words: List[str]) -> None:
    warnings.simplefilter("ignore")
    count, chance = int((words or ["30000"])[0]), random.Random(int((words[1:] or ["1"])[0]))
    tallies = [Tally(kind) for kind in KINDS]
    with tempfile.TemporaryDirectory() as folder:
        referee = Referee(folder)
        for _ in range(count // PATHS):
            lines = [line_of(chance) for _ in range(chance.randint(1, 5))]
            paths = [path_of(chance) for _ in range(PATHS)]
            git = referee.ignored(lines, paths)
            for tally in tallies:
                tally.ask(lines, paths, git)
    for tally in tallies:
        tally.print(count)


if __name__ == "__main__":
    main(sys.argv[1:])
