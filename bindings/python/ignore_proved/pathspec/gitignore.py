"""The class for gitignore files."""
from __future__ import annotations

from typing import Any, Iterable, Optional, Type, TypeVar

from .pathspec import Factory, PathSpec
from .patterns.gitwildmatch import GitWildMatchPattern

Self = TypeVar("Self", bound="GitIgnoreSpec")


class GitIgnoreSpec(PathSpec):
    """A PathSpec of the lines of a gitignore file, which answers as git does, from the top down: an
    ignored folder decides, whatever is said of what it holds. It is equal to no other PathSpec.

        >>> GitIgnoreSpec.from_lines(["build/", "!build/keep"]).match_file("build/keep")
        True
    """

    _is_from_the_top = True

    def __eq__(self, other: object) -> bool:
        if not isinstance(other, PathSpec):
            return NotImplemented
        return isinstance(other, GitIgnoreSpec) and super().__eq__(other)

    __hash__ = None  # type: ignore[assignment]

    @classmethod
    def from_lines(  # type: ignore[override]
        cls: Type[Self], lines: Iterable[Any], pattern_factory: Optional[Factory] = None
    ) -> Self:
        """The patterns of lines. The two arguments may be exchanged, as PathSpec has them."""
        if isinstance(lines, str) or callable(lines):
            lines, pattern_factory = pattern_factory, lines  # type: ignore[assignment]
        return super().from_lines(pattern_factory or GitWildMatchPattern, lines)
