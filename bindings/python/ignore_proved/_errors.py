"""Errors of calls."""
from __future__ import annotations

from . import _library as lib


class IgnoreError(Exception):
    """Something is wrong with a call, or with what it was given."""


class NotUtf8Error(IgnoreError, ValueError):
    """A text isn't UTF-8."""


class InvalidRuleError(IgnoreError, ValueError):
    """A line, or some lines of a file, are invalid. The text says which, and why."""


class MisusedError(IgnoreError):
    """The object isn't so far yet, is closed, or isn't of the kind that the call wants."""


class OutsideError(IgnoreError, ValueError):
    """The path isn't below the root."""


class TreeError(IgnoreError, ValueError):
    """A tree isn't changed: the text says why."""


class LimitError(IgnoreError):
    """A walk took more steps than it may, or a search over all paths needs more states."""


KINDS = {
    lib.LIMIT: LimitError("the walk took more steps than it may"),
    lib.NOT_CLEAN: TreeError("the path isn't `/`, or `/` and names joined by single slashes"),
    lib.NO_PARENT: TreeError("what the path should be in isn't a directory of the tree"),
    lib.EXISTS: TreeError("something is at the path already"),
    lib.MISSING: TreeError("nothing of the kind is at the path"),
    lib.NOT_UTF8: NotUtf8Error("a text isn't UTF-8"),
    lib.MISUSED: MisusedError("the object isn't so far, or is of another kind"),
    lib.OUTSIDE: OutsideError("the path isn't below the root"),
    lib.TOO_LARGE: LimitError("more states are needed than the limit"),
    lib.REFUSED: IgnoreError("the check refuses what the search left"),
}


def error_of(code: int) -> BaseException:
    """The error of a code that isn't an answer."""
    if code == lib.NO_MEMORY:
        return MemoryError("the library is out of memory")
    error = KINDS.get(code)
    if error is None:
        return IgnoreError(f"the library answers {code}")
    return type(error)(*error.args)


def checked(code: int) -> None:
    """Raises the error of a code, unless it is that all went well."""
    if code != lib.OK:
        raise error_of(code)
