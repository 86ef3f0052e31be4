"""Guides: which entries of directories count, for who lists these himself."""
from __future__ import annotations

import ctypes
import os
from array import array
from ctypes import byref, c_size_t, c_uint32
from typing import Any, Callable, Iterable, List, NamedTuple, Optional, Sequence, Tuple

from . import _library as lib
from ._decisions import DECISIONS
from ._errors import checked, error_of
from ._names import of_disk, told
from ._owner import Owner, handle_of, number
from .answers import Match, lengths_of
from .host import Given, read
from .rules import Path, encoded, plain
from .tree import Builder, text

NO_SIZES = (ctypes.c_uint64 * 1)()
NOTHING = Given(0, b"", 0)
#: By a code of `decide_all`: the verdict, that a walk descends, that it is within depth.
VERDICT, DESCENDS, WITHIN = 3, 4, 8

Reads = Callable[[int, str], Given]


class Problem(NamedTuple):
    """A part of what is wrong with a file of rules; what isn't known is None."""

    path: Optional[str]
    line: Optional[int]
    glob: Optional[str]
    text: str


class Listed(NamedTuple):
    """The names of a directory as a guide takes them, and which of them are directories."""

    names: bytes
    kinds: bytes

    @classmethod
    def of(cls, names: Iterable[str], are_dirs: Iterable[bool]) -> "Listed":
        """The names, and whether each is a directory."""
        kinds = bytes(2 if is_dir else 1 for is_dir in are_dirs)
        # (no name has a zero, so all are told at once; an empty directory lists itself)
        joined = told("\0".join(names)).encode("utf-8") if kinds else b"."
        return cls(joined + b"\0", kinds)


class Guide(Owner):
    """What decides in the directories that were entered and not left, by the settings of a builder.

    Directories are entered below a root or one another, their entries are decided on, and they are
    left, those below them first. What has to be known of a path is read from the disk, or by
    `reads(wanted, path)`: 1 is what is there, 2 its content too, 3 its canonical path. Where that
    raises, or answers what a guide can't be given, the directory isn't entered.
    """

    _kind = "guide"

    def __init__(self, builder: Builder, reads: Reads = read) -> None:
        handle = self._new()
        checked(lib.library.ignore_guide_new(handle_of(Builder, builder), byref(handle)))
        self._own(handle)
        self._reads = reads

    def root(self, path: Path) -> lib.Place:
        """Begins a root, by its path."""
        given = text(told(os.fsdecode(encoded(path))))
        return self._come(lib.library.ignore_guide_root, *given)

    def enter(self, parent: lib.Place, name: str, listed: Optional[Listed] = None) -> lib.Place:
        """Enters the directory of a name in another, of which it may be known what it lists."""
        names = plain(listed.names) if listed else b""
        given = byref(parent), *text(told(name)), names, len(names)
        return self._come(lib.library.ignore_guide_enter, *given)

    def decide(
        self, place: lib.Place, name: str, is_dir: bool, size: Optional[int] = None
    ) -> Match:
        """What becomes of an entry of a directory that was entered."""
        found, given = lib.Found(), told(name).encode("utf-8")
        size = lib.NO_SIZE if size is None else number(size)
        code = lib.library.ignore_guide_decide(
            self.handle, byref(place), given, len(given), bool(is_dir), size, byref(found)
        )
        return match_of(code, found)

    def decide_all(
        self, place: lib.Place, listed: Listed, sizes: Optional[Sequence[int]] = None
    ) -> bytes:
        """The same of all that a directory lists, by a number for each: 1, 2 and 3 stand for the
        decisions; 4 is added where a walk would enter it, 8 where it is as deep as asked.
        """
        names, kinds = map(plain, listed)
        # (an array's numbers are those that fit, and as many as it has)
        count, given = len(kinds), array("Q", () if sizes is None else iter(sizes))
        if sizes is not None and len(given) != count:
            raise error_of(lib.MISUSED)
        codes = ctypes.create_string_buffer(max(count, 1))
        if count:
            at = (ctypes.c_uint64 * len(given)).from_buffer(given) if given else NO_SIZES
            checked(lib.library.ignore_guide_decide_all(
                self.handle, byref(place), names, len(names), kinds, count, at, len(given),
                codes, count,
            ))
        return codes.raw[:count]

    def why(
        self, place: lib.Place, name: str, is_dir: bool, size: Optional[int] = None
    ) -> Tuple[Match, lib.WhyParts, bytes]:
        """What becomes of an entry, as `decide` says, the parts of the reason, and its texts."""
        parts, room = lib.WhyParts(), ctypes.create_string_buffer(512)
        found, given = lib.Found(), text(told(name))
        size = lib.NO_SIZE if size is None else number(size)
        while True:
            code = lib.library.ignore_guide_why(
                self.handle, byref(place), *given, bool(is_dir), size, byref(found),
                byref(parts), room, len(room),
            )
            match = match_of(code, found)
            whole = sum(lengths_of(parts))
            if whole <= len(room):
                return match, parts, room.raw[:whole]
            room = ctypes.create_string_buffer(whole)

    def leave(self, place: lib.Place) -> None:
        """Leaves a directory, after those below it."""
        self._call("leave", byref(place))

    def problems(self, most: int = 100) -> Sequence[Problem]:
        """What is wrong with the files of rules of the directory that was entered last: of more than
        `most` problems the first ones. Each is looked for from the first one on, so that the time
        of many grows with the square of their number."""
        found: List[Problem] = []
        room = ctypes.create_string_buffer(512)
        while len(found) < most:
            parts = lib.ProblemParts()
            code = lib.library.ignore_guide_problem(
                self.handle, len(found), byref(parts), room, len(room)
            )
            if code == lib.NONE:
                return found
            checked(code)
            whole = parts.path + parts.glob + parts.text
            if whole > len(room):
                room = ctypes.create_string_buffer(whole)
                continue
            found.append(problem_of(parts, room.raw[:whole]))
        return found

    def _come(self, call: Any, *words: object) -> lib.Place:
        """The place that a call answers, once it is given what it wants to know."""
        place, code = lib.Place(), lib.WANTS
        handle = self.handle
        try:
            code = call(handle, *words, byref(place))
            if code == lib.WANTS:
                self._answer(place)
            else:
                checked(code)
            return place
        except BaseException:
            # (whatever it was, the call doesn't wait on, nor is there a place that nobody has)
            if code == lib.WANTS or place.serial:
                self._end(place)
            raise

    def _answer(self, place: lib.Place) -> None:
        """Gives what the call that waits wants to know, until it has a place."""
        room, wanted, whole = ctypes.create_string_buffer(512), c_uint32(), c_size_t()
        code = lib.WANTS
        while code == lib.WANTS:
            self._call("wanted", byref(wanted), room, len(room), byref(whole))
            if whole.value > len(room):
                room = ctypes.create_string_buffer(whole.value)
                continue
            path = of_disk(room[: whole.value].decode("utf-8"))
            code = self._give(self._reads(wanted.value, path), place)
        checked(code)

    def _give(self, given: Given, place: lib.Place) -> int:
        """Gives what the call that waits wants to know, and returns what that answers."""
        kind, content, fault = given
        content = plain(content)
        fault = lib.NO_FAULT if fault is None else number(fault, 4)
        words = number(kind, 4), content, len(content), fault
        code: int = lib.library.ignore_guide_give(self.handle, *words, byref(place))
        return code

    def _end(self, place: lib.Place) -> None:
        """Ends the call that waits, if one does: nothing is there, and the directory is left."""
        while not place.serial and self._give(NOTHING, place) == lib.WANTS:
            pass
        if place.serial:
            self.leave(place)


def match_of(code: int, found: lib.Found) -> Match:
    """The answer of a code, or the error that it stands for."""
    kind = DECISIONS.get(code)
    if kind is None:
        raise error_of(code)
    return Match(kind, found.should_descend, found.is_within_depth)


def problem_of(parts: lib.ProblemParts, texts: bytes) -> Problem:
    """A problem of its parts, and of its texts, one after the other."""
    path, rest = texts[: parts.path], texts[parts.path:]
    glob, said = rest[: parts.glob], rest[parts.glob:]
    return Problem(
        of_disk(path.decode("utf-8")) if parts.has_path else None, parts.line or None,
        glob.decode("utf-8") if parts.has_glob else None, said.decode("utf-8", "replace"),
    )
