"""The interface of the package `pathspec`, over proved rules.

    >>> from ignore_proved import pathspec
    >>> spec = pathspec.GitIgnoreSpec.from_lines(["*.o", "!keep.o", "build/"])
    >>> list(spec.match_files(["a.o", "keep.o", "build/keep.o", "c"]))
    ['a.o', 'build/keep.o']
    >>> spec.check_file("keep.o").index
    1

A program that calls `pathspec` calls this one after `stand_in`; `python3 -m ignore_proved.pathspec
MODULE ARG..` runs a module so. bindings/README.md has a table of the differences from `pathspec`.
"""
import sys

from . import patterns, util
from .gitignore import GitIgnoreSpec
from .pathspec import CheckResult, PathSpec
from .pattern import Pattern, RegexPattern
from .patterns.gitwildmatch import GitIgnorePattern
from .util import (
    RecursionError, iter_tree, iter_tree_entries, iter_tree_files, lookup_pattern, match_files,
)

__all__ = [
    "CheckResult",
    "GitIgnorePattern",
    "GitIgnoreSpec",
    "PathSpec",
    "Pattern",
    "RecursionError",
    "RegexPattern",
    "iter_tree",
    "iter_tree_entries",
    "iter_tree_files",
    "lookup_pattern",
    "match_files",
    "patterns",
    "stand_in",
    "util",
]


def stand_in() -> None:
    """Has `import pathspec`, and that of its modules, be of this package from now on.

    Raises ImportError where `pathspec` itself was imported before, which others have then.
    """
    before = sys.modules.get("pathspec")
    if before not in (None, sys.modules[__name__]):
        raise ImportError("pathspec was imported already, so this can't stand in for it")
    for name, module in list(sys.modules.items()):
        if name == __name__ or name.startswith(f"{__name__}."):
            sys.modules["pathspec" + name[len(__name__):]] = module
