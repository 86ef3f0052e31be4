#!/usr/bin/env python3
"""Compares the processor time that a `PathSpec` takes here and in the package `pathspec`, under 10,
50 and 500 lines: to make it with a first question, and then a question of each of 10,000 paths in
some 2,500 folders, by `match_file` and by `match_files`. Each figure is the median of the ratios of
several turns, in which both are made anew. Wants `pathspec` on the path of modules.
usage: pathspec_time.py [TURNS]
"""
from __future__ import annotations

import random
import re
import statistics
import sys
import time
from typing import Any, List, Tuple

import pathspec

from ignore_proved import pathspec as ours

LINES = ["src/{}/*.o", "*.{}", "build/{}/", "!keep.{}", "/{}", "docs/**/{}", "{}*/tmp"]
FOLDERS = ["src", "docs", "build", "lib", "n3", "x", "y.n7", "test"]
FILES = ["a.c", "main.py", "x.o", "n{}", "f.n{}", "keep.n{}"]


def paths_of(chance: random.Random) -> List[str]:
    """Some paths, of which a part is matched by lines of `LINES`."""
    folders = ["/".join(chance.choices(FOLDERS, k=chance.randint(1, 4))) for _ in range(10000)]
    return [f"{it}/{chance.choice(FILES).format(chance.randrange(500))}" for it in folders]


def took(made: Any, lines: List[str], paths: List[str]) -> Tuple[Tuple[float, ...], List[bool]]:
    """The times to make a spec, of a question, and of one in a list, and the answers."""
    re.purge()
    times = [time.process_time()]
    spec = made.from_lines("gitwildmatch", lines)
    spec.match_file("a")
    times.append(time.process_time())
    found = [spec.match_file(path) for path in paths]
    times.append(time.process_time())
    spec = made.from_lines("gitwildmatch", lines)
    spec.match_file("a")
    times.append(time.process_time())
    listed = set(spec.match_files(paths))
    times.append(time.process_time())
    assert [path in listed for path in paths] == found, "match_files and match_file differ"
    return (times[1] - times[0], times[2] - times[1], times[4] - times[3]), found


def main(words: List[str]) -> None:
    turns, chance = int((words or ["9"])[0]), random.Random(1)
    paths = paths_of(chance)
    for count in (10, 50, 500):
        lines = [chance.choice(LINES).format(f"n{number}") for number in range(count)]
        ratios = []
        for _ in range(turns):
            here, found = took(ours.PathSpec, lines, paths)
            there, others = took(pathspec.PathSpec, lines, paths)
            assert found == others, "the answers differ"
            ratios.append([own / other for own, other in zip(here, there)])
        made, one, listed = (statistics.median(each) for each in zip(*ratios))
        print(f"{count} lines, {sum(found)} of {len(paths)} paths matched: to make it takes "
              f"{made:.2f}, a question {one:.3f}, one in a list {listed:.3f} of pathspec's time")


if __name__ == "__main__":
    main(sys.argv[1:])
