"""What a matcher answers, and why."""
from __future__ import annotations

from dataclasses import dataclass
from enum import Enum
from typing import NamedTuple, Optional, Tuple

from . import _library as lib
from ._decisions import Decision
from ._names import of_disk


class Match(NamedTuple):
    """What becomes of a path: what decides, whether a walk would enter it, and whether it is as
    deep as the limits on depth ask.
    """

    decision: Decision
    should_descend: bool
    is_within_depth: bool

    @property
    def is_ignore(self) -> bool:
        """Whether the path is ignored."""
        return self.decision is Decision.IGNORE

    @property
    def is_whitelist(self) -> bool:
        """Whether the path is whitelisted."""
        return self.decision is Decision.WHITELIST

    @property
    def is_none(self) -> bool:
        """Whether nothing decides."""
        return self.decision is Decision.NONE

    def __bool__(self) -> bool:
        return self.is_ignore


class Cause(Enum):
    """What decides on a path, or why nothing does."""

    NOT_ASKED = 1
    UNRULED = 2
    TOO_SHALLOW = 3
    TOO_DEEP = 4
    NO_RULE = 5
    RULE = 6
    OVERRIDE = 7
    NO_OVERRIDE = 8
    TYPE = 9
    NO_TYPE = 10
    HIDDEN = 11
    LARGER = 12


class Rank(Enum):
    """In which list a rule stands: those of custom names, of `.ignore`, of `.gitignore`, of
    `info/exclude`, of git's global file, of files that were given. The first that has a match
    decides.
    """

    CUSTOM = 1
    IGNORE = 2
    GITIGNORE = 3
    EXCLUDE = 4
    GLOBAL = 5
    EXPLICIT = 6


#: The words for a cause that is no rule, glob, type or size.
WORDS = {
    Cause.NOT_ASKED: "not asked",
    Cause.UNRULED: "not asked",
    Cause.TOO_SHALLOW: "above the least depth",
    Cause.TOO_DEEP: "below the greatest depth",
    Cause.NO_RULE: "no rule",
    Cause.NO_OVERRIDE: "no override",
    Cause.NO_TYPE: "no type",
    Cause.HIDDEN: "hidden",
}


@dataclass(frozen=True)
class Explanation:
    """What becomes of a path, and why; what isn't of its cause is None.

    - `pattern`: the line of a rule, a glob of `overrides`, or the name of a file type;
    - `glob`: the last glob of the file type that matches;
    - `rank`, `directory`, `source`, `line`: in which list a rule stands, and the directory of that;
      the file that the rule was read from, and the number of its line there;
    - `size`, `limit`: in bytes, where the size is above its limit;
    - `ancestor`: the first ignored directory on the way from the root, by its path below that,
      where the path is in one: all else then says why that one is ignored.

    Its text is that of `ig why`: `.gitignore:3:*.o`, `override *.rs`, `type rust`, `hidden`.
    """

    match: Match
    cause: Cause
    pattern: Optional[str] = None
    glob: Optional[str] = None
    rank: Optional[Rank] = None
    directory: Optional[str] = None
    source: Optional[str] = None
    line: Optional[int] = None
    size: Optional[int] = None
    limit: Optional[int] = None
    ancestor: Optional[str] = None

    def __str__(self) -> str:
        if self.cause is Cause.RULE:
            line = "" if self.line is None else self.line
            return f"{self.source or ''}:{line}:{self.pattern}"
        if self.cause is Cause.OVERRIDE:
            return f"override {self.pattern}"
        if self.cause is Cause.TYPE:
            return f"type {self.pattern}"
        if self.cause is Cause.LARGER:
            return f"larger than {self.limit}"
        return WORDS[self.cause]


def lengths_of(parts: lib.WhyParts) -> Tuple[int, ...]:
    """The lengths of the texts of a reason, in their order."""
    return parts.directory, parts.source, parts.pattern, parts.glob, parts.ancestor


def explanation_of(match: Match, parts: lib.WhyParts, texts: bytes) -> Explanation:
    """The explanation of its parts, and of its texts, one after the other."""
    taken, cause = [], Cause(parts.kind)
    for length in lengths_of(parts):
        taken.append(texts[:length].decode("utf-8"))
        texts = texts[length:]
    directory, source, pattern, glob, ancestor = taken
    rank = Rank(parts.rank) if cause is Cause.RULE else None
    is_larger = cause is Cause.LARGER
    return Explanation(
        match=match,
        cause=cause,
        pattern=pattern if cause in (Cause.RULE, Cause.OVERRIDE, Cause.TYPE) else None,
        glob=glob if cause is Cause.TYPE else None,
        rank=rank,
        directory=of_disk(directory) if rank and directory else None,
        source=of_disk(source) if parts.has_source else None,
        line=parts.line or None,
        size=parts.size if is_larger else None,
        limit=parts.limit if is_larger else None,
        ancestor=of_disk(ancestor) if parts.is_inside else None,
    )
