"""What is found of rules over all paths, whatever a tree holds.

A path is asked of rules at their root: names joined by single slashes, a file's or a directory's. A
list reaches it where it ignores no folder on the way. What is found holds of the list alone: rules
elsewhere may whitelist a folder that it ignores.
"""
from __future__ import annotations

import ctypes
from ctypes import byref, c_size_t
from enum import Enum
from typing import Any, List, NamedTuple, Optional, Tuple

from . import _library as lib
from ._decisions import DECISIONS, Decision
from ._errors import checked, error_of
from ._owner import Owner, number

#: How many states a search finds at most, where nothing else is said.
LIMIT = 1_000_000


class Dead(Enum):
    """Why a rule decides on no path that its list reaches.

    - `OVERRULED`: it decides on no path at all; where it applies, other rules decide;
    - `UNMATCHED`: it applies to no path;
    - `BY_FOLDERS`: it decides only in folders that the list ignores;
    - `UNREACHED`: whether it decides in such folders would have needed more states than the limit.
    """

    OVERRULED = 1
    UNMATCHED = 2
    BY_FOLDERS = 3
    UNREACHED = 4


class Finding(NamedTuple):
    """A rule that decides on no path which its list reaches. Rules are named by their indices in
    `Rules.rules()`; what isn't of its kind is None.

    - `overruled_by`: of OVERRULED, the rules that decide where it applies, and no others do;
    - `path`, `is_dir`: of BY_FOLDERS, a shortest path on which it decides, and whether that is a
      directory's;
    - `folder`, `folder_rule`: the folder with which the path begins, and the rule that ignores it.
    """

    rule: int
    why: Dead
    overruled_by: Tuple[int, ...] = ()
    path: Optional[str] = None
    is_dir: Optional[bool] = None
    folder: Optional[str] = None
    folder_rule: Optional[int] = None


class Said(NamedTuple):
    """What a list says of a path: the decision, and the index of the rule that decides, if any."""

    decision: Decision
    rule: Optional[int]


class Difference(NamedTuple):
    """A path at which two lists differ, whether it is a directory's, and what each list says."""

    path: str
    is_dir: bool
    before: Said
    after: Said


class Findings(Owner):
    """What is found of the dead rules of a list, for as long as it is read."""

    _kind = "findings"

    def __init__(self, rules: Any, limit: int) -> None:
        handle = self._new()
        checked(lib.library.ignore_rules_dead(rules, number(limit), byref(handle)))
        self._own(handle)

    def all(self) -> List[Finding]:
        """All of them, in the order of the rules."""
        found: List[Finding] = []
        while True:
            one = self._at(len(found))
            if one is None:
                return found
            found.append(one)

    def _at(self, index: int) -> Optional[Finding]:
        parts, room = lib.FindingParts(), ctypes.create_string_buffer(1024)
        while True:
            words = byref(parts), room, len(room)
            code = lib.library.ignore_findings_rule(self.handle, index, *words)
            if code == lib.NONE:
                return None
            checked(code)
            whole = parts.path + parts.folder
            if whole <= len(room):
                break
            room = ctypes.create_string_buffer(whole)
        rules = tuple(self._overruling(index, place) for place in range(parts.overruling))
        return finding_of(parts, rules, room.raw[:whole])

    def _overruling(self, index: int, place: int) -> int:
        rule = c_size_t()
        self._call("overruling", index, place, byref(rule))
        return rule.value


def finding_of(parts: lib.FindingParts, rules: Tuple[int, ...], texts: bytes) -> Finding:
    """A finding of its parts, of the rules that overrule it, and of its path and its folder."""
    why = Dead(parts.kind)
    if why is not Dead.BY_FOLDERS:
        return Finding(parts.rule, why, rules)
    path, folder = texts[: parts.path].decode("utf-8"), texts[parts.path:].decode("utf-8")
    return Finding(parts.rule, why, rules, path, parts.is_dir, folder, parts.folder_rule)


def difference_of(before: Any, after: Any, only_ignored: bool, limit: int) -> Optional[Difference]:
    """A shortest path at which the lists of two handles differ, if they do."""
    options = lib.CompareOptions(number(limit), bool(only_ignored))
    parts, room = lib.DifferenceParts(), ctypes.create_string_buffer(1024)
    while True:
        words = byref(options), byref(parts), room, len(room)
        code = lib.library.ignore_rules_same(before, after, *words)
        if code == lib.OK:
            return None
        if code != lib.DIFFERENT:
            raise error_of(code)
        if parts.path <= len(room):
            break
        room = ctypes.create_string_buffer(parts.path)
    return Difference(
        path=room.raw[: parts.path].decode("utf-8"),
        is_dir=parts.is_dir,
        before=said_of(parts.before, parts.before_rule),
        after=said_of(parts.after, parts.after_rule),
    )


def said_of(verdict: int, rule: int) -> Said:
    """What a list says, by the number of the verdict."""
    decision = DECISIONS[verdict]
    return Said(decision, None if decision is Decision.NONE else rule)
