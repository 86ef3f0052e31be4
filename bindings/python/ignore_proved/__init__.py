"""Gitignore rules, proved: what ripgrep's crate `ignore` decides, by a proved library.

    rules = Rules.from_file("project/.gitignore")
    answer = rules.match("project/build/a.o")
    if answer.is_ignore:
        print(answer.reason.pattern, answer.reason.source)

    with Matcher("project") as matcher:
        matcher.is_ignored("build/a.o")
        print(matcher.explain("build/a.o"))         # project/.gitignore:3:build/
    for entry in walk("project"):
        print(entry.path)
"""
from ._decisions import Decision
from ._errors import (
    IgnoreError,
    InvalidRuleError,
    LimitError,
    MisusedError,
    NotUtf8Error,
    OutsideError,
    TreeError,
)
from .answers import Cause, Explanation, Match, Rank
from .every import Dead, Difference, Finding, Said
from .guide import Guide, Listed, Problem
from .host import Given
from .matcher import Matcher, TreeMatcher
from .rules import Answer, Reason, Rules
from .tree import Builder, Tree
from .walk import Item, TreeWalk, walk

__version__ = "1.1.0"

__all__ = [
    "Answer",
    "Builder",
    "Cause",
    "Dead",
    "Decision",
    "Difference",
    "Explanation",
    "Finding",
    "Given",
    "Guide",
    "IgnoreError",
    "InvalidRuleError",
    "Item",
    "LimitError",
    "Listed",
    "Match",
    "Matcher",
    "MisusedError",
    "NotUtf8Error",
    "OutsideError",
    "Problem",
    "Rank",
    "Reason",
    "Rules",
    "Said",
    "Tree",
    "TreeError",
    "TreeMatcher",
    "TreeWalk",
    "walk",
]
