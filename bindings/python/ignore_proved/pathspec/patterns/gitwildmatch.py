"""Lines of gitignore files as patterns."""
from __future__ import annotations

from typing import Any, Optional, Tuple, Type, TypeVar, Union

from .._lines import Lines, is_blank, line_of, positive
from ..pattern import Pattern

Text = TypeVar("Text", str, bytes)


class GitWildMatchPatternError(ValueError):
    """What `pathspec` raises of an invalid line. Here such a line matches nothing, as in git."""


class GitWildMatchPattern(Pattern):
    """A line of a gitignore file. It is its line: it can be pickled, copied, used on any thread.

        >>> GitWildMatchPattern("*.o").match_file("src/a.o")
        True
        >>> [GitWildMatchPattern(line).include for line in ("a", "!a", "# a")]
        [True, False, None]
    """

    __slots__ = ("line", "_lines")

    def __init__(self, pattern: Union[str, bytes, None], include: Optional[bool] = None) -> None:
        if pattern is not None and not isinstance(pattern, (str, bytes)):
            raise TypeError(f"a line is wanted, and not {type(pattern).__name__}")
        if include is not None:
            raise TypeError("a line says itself what it includes")
        self.line = line_of(pattern or "")
        self._lines: Optional[Lines] = None
        super().__init__(None if is_blank(self.line) else not self.line.startswith("!"))

    def __eq__(self, other: object) -> bool:
        if not isinstance(other, GitWildMatchPattern):
            return NotImplemented
        if self.include is None:
            return other.include is None
        return self.line == other.line

    def __repr__(self) -> str:
        return f"{type(self).__name__}({self.line!r})"

    def __reduce__(self) -> Tuple[Type["GitWildMatchPattern"], Tuple[str]]:
        return type(self), (self.line,)

    @property
    def pattern(self) -> str:
        """The line."""
        return self.line

    def match_file(self, file: str) -> Optional[Any]:
        """True where the line, without its `!`, ignores the path or a folder that it is in."""
        if self.include is None:
            return None
        if self._lines is None:
            self._lines = Lines([positive(self.line)])
        return self._lines.includes(file) or None

    @staticmethod
    def escape(s: Text) -> Text:
        r"""A name as a line that matches it alone, at each depth.

            >>> GitWildMatchPattern.escape("a[1]*.c")
            'a\\[1\\]\\*.c'
        """
        if isinstance(s, bytes):
            return b"".join(b"\\" + s[at:at + 1] if s[at] in b"[]!*#?" else s[at:at + 1]
                            for at in range(len(s)))
        if isinstance(s, str):
            return "".join("\\" + it if it in "[]!*#?" else it for it in s)
        raise TypeError(f"a text is wanted, and not {type(s).__name__}")


#: The older name.
GitIgnorePattern = GitWildMatchPattern
