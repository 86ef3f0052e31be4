#!/usr/bin/env python3
"""Lists the files below a folder that no rule ignores, as `walk` yields them, and the time of it
beside that of `os.walk` with the package pathspec where that is there: `list.py FOLDER [ROUNDS]`.
Both lists are compared where the folder's rules are in one `.gitignore` at its top.
"""
from __future__ import annotations

import os
import sys
import time
from typing import Callable, List, Tuple

from ignore_proved import walk

try:
    import pathspec
except ImportError:
    pathspec = None  # type: ignore[assignment]


def by_walk(root: str) -> List[str]:
    return sorted(it.path for it in walk(root, hidden=False, parents=False, git_global=False,
                                         require_git=False) if not it.is_dir(follow_symlinks=False))


def by_pathspec(root: str) -> List[str]:
    with open(os.path.join(root, ".gitignore"), encoding="utf-8") as file:
        spec = pathspec.GitIgnoreSpec.from_lines(file)
    found: List[str] = []
    for folder, folders, files in os.walk(root):
        below = os.path.relpath(folder, root)
        prefix = "" if below == "." else f"{below}/"
        folders[:] = [it for it in folders if not spec.match_file(f"{prefix}{it}/")]
        found += [os.path.join(folder, it) for it in files if not spec.match_file(prefix + it)]
    return sorted(found)


def timed(
    call: Callable[[str], List[str]], root: str, rounds: int
) -> Tuple[List[str], float]:
    times = []
    for _ in range(rounds):
        start = time.perf_counter()
        found = call(root)
        times.append(time.perf_counter() - start)
    return found, sorted(times)[rounds // 2]


if __name__ == "__main__":
    ROOT, ROUNDS = os.path.realpath(sys.argv[1]), int((sys.argv[2:] or ["3"])[0])
    files, took = timed(by_walk, ROOT, ROUNDS)
    print(f"walk: {len(files)} files, {took:.2f} s")
    if pathspec is not None:
        others, longer = timed(by_pathspec, ROOT, ROUNDS)
        print(f"pathspec: {len(others)} files, {longer:.2f} s, {longer / took:.2f} times as long; "
              f"{'the same files' if files == others else 'other files'}")
