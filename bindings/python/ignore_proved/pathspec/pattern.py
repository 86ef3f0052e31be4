"""Patterns: what decides on files, one after the other."""
from __future__ import annotations

import re
from typing import Any, Iterable, Iterator, Optional, Union


class Pattern:
    """A pattern: it includes what it matches, or excludes it, or (`include` None) is none."""

    __slots__ = ("include",)

    def __init__(self, include: Optional[bool]) -> None:
        self.include = include

    def match_file(self, file: str) -> Optional[Any]:
        """Something where the pattern matches a path, and else None."""
        raise NotImplementedError(f"{type(self).__name__} has no match_file")

    def match(self, files: Iterable[str]) -> Iterator[str]:
        """The paths that the pattern matches."""
        return (file for file in files if self.match_file(file) is not None)


class RegexPattern(Pattern):
    """A regular expression of a caller's own, which matches from the start of a path.

        >>> RegexPattern("a+/").match_file("aa/b") is not None
        True
    """

    __slots__ = ("regex",)

    def __init__(
        self, pattern: Union[str, "re.Pattern[str]", None], include: Optional[bool] = None
    ) -> None:
        if isinstance(pattern, str):
            if include is not None:
                raise TypeError("include goes with a compiled expression")
            include = True
        super().__init__(include)
        self.regex = None if pattern is None else re.compile(pattern)

    def __eq__(self, other: object) -> bool:
        if not isinstance(other, RegexPattern):
            return NotImplemented
        return (self.include, self.regex) == (other.include, other.regex)

    def match_file(self, file: str) -> Optional["re.Match[str]"]:
        """The expression's match of the path, if it is a pattern and matches."""
        if self.include is None or self.regex is None:
            return None
        return self.regex.match(file)
