"""Lists of patterns, asked about files."""
from __future__ import annotations

from dataclasses import dataclass
from typing import (
    Any, Callable, Collection, Dict, Iterable, Iterator, Optional, Tuple, Type, TypeVar, Union,
)

from ..rules import several
from . import util
from ._lines import Decided, Lines
from .pattern import Pattern
from .patterns.gitwildmatch import GitWildMatchPattern
from .util import F, File, TreeEntry, normalize_file

Self = TypeVar("Self", bound="PathSpec")
Factory = Union[str, Callable[[Any], Pattern]]
Separators = Optional[Collection[str]]


@dataclass(frozen=True)
class CheckResult:
    """What the patterns say of a file: `include` None where none decides, else the `index` of the
    pattern that does.
    """

    file: Any
    include: Optional[bool]
    index: Optional[int]


class PathSpec:
    """Patterns in order. The last one that matches a file, or a folder that it is in, decides.
    Lines of gitignore files are read as git reads them; GitIgnoreSpec also answers as git does.

        >>> spec = PathSpec.from_lines("gitwildmatch", ["*.o", "!keep.o"])
        >>> spec.match_file("src/a.o"), spec.match_file("src/keep.o"), len(spec)
        (True, False, 2)
        >>> import pickle
        >>> pickle.loads(pickle.dumps(spec)) == spec
        True

    It can be pickled, copied, and used on any thread. As it can be added to, it has no hash.
    """

    _is_from_the_top = False

    def __init__(self, patterns: Iterable[Pattern]) -> None:
        self.patterns = tuple(patterns)

    @property
    def patterns(self) -> Tuple[Pattern, ...]:
        """The patterns."""
        return self._patterns

    @patterns.setter
    def patterns(self, patterns: Iterable[Pattern]) -> None:
        self._patterns = tuple(patterns)
        self._lines: Optional[Lines] = None
        if all(isinstance(it, GitWildMatchPattern) for it in self._patterns):
            lines = [getattr(it, "line", "") for it in self._patterns]
            self._lines = Lines(lines, self._is_from_the_top)

    @classmethod
    def from_lines(cls: Type[Self], pattern_factory: Factory, lines: Iterable[Any]) -> Self:
        """The patterns of lines, which may end with newlines, by the name of a kind or by a
        callable that makes a pattern of a line. Empty texts are left out.
        """
        factory = util.factory_of(pattern_factory)
        return cls(factory(line) for line in several(lines) if line)

    def __eq__(self, other: object) -> bool:
        if not isinstance(other, PathSpec):
            return NotImplemented
        return self._patterns == other._patterns

    __hash__ = None  # type: ignore[assignment]

    def __len__(self) -> int:
        return len(self._patterns)

    def __iter__(self) -> Iterator[Pattern]:
        return iter(self._patterns)

    def __repr__(self) -> str:
        return f"{type(self).__name__}({list(self._patterns)!r})"

    def __add__(self: Self, other: "PathSpec") -> Self:
        if not isinstance(other, PathSpec):
            return NotImplemented
        return type(self)(self._patterns + other._patterns)

    def __iadd__(self: Self, other: "PathSpec") -> Self:
        if not isinstance(other, PathSpec):
            return NotImplemented
        self.patterns = self._patterns + other._patterns
        return self

    def __getstate__(self) -> Dict[str, Any]:
        return {name: it for name, it in vars(self).items() if name != "_lines"}

    def __setstate__(self, state: Dict[str, Any]) -> None:
        vars(self).update(state)
        self.patterns = state["_patterns"]

    def _is_matched(self, path: str, is_dir: bool = False) -> bool:
        if self._lines is not None:
            return self._lines.includes(path, is_dir)
        return bool(self._decided(path).include)

    def _decided(self, path: str) -> Decided:
        if self._lines is not None:
            return self._lines.decided(path)
        for index in range(len(self._patterns) - 1, -1, -1):
            pattern = self._patterns[index]
            if pattern.include is not None and pattern.match_file(path) is not None:
                return Decided(pattern.include, index)
        return Decided(None, None)

    def match_file(self, file: File, separators: Separators = None) -> bool:
        """Whether the patterns match a file. A path that ends with `/` is a folder."""
        return self._is_matched(normalize_file(file, separators))

    def match_files(
        self, files: Iterable[F], separators: Separators = None, *, negate: Optional[bool] = None
    ) -> Iterator[F]:
        """The files that the patterns match; with `negate` the others."""
        wanted = not negate
        for file in several(files):
            if self._is_matched(normalize_file(file, separators)) is wanted:
                yield file

    def match_entries(
        self,
        entries: Iterable[TreeEntry],
        separators: Separators = None,
        *,
        negate: Optional[bool] = None,
    ) -> Iterator[TreeEntry]:
        """The entries that the patterns match; with `negate` the others. A folder is one."""
        wanted = not negate
        for entry in several(entries):
            is_dir = isinstance(entry, TreeEntry) and entry.is_dir(False)
            if self._is_matched(normalize_file(entry.path, separators), is_dir) is wanted:
                yield entry

    def match_tree_entries(
        self,
        root: File,
        on_error: Optional[Callable[[OSError], object]] = None,
        follow_links: Optional[bool] = None,
        *,
        negate: Optional[bool] = None,
    ) -> Iterator[TreeEntry]:
        """The entries below a folder that the patterns match; with `negate` the others."""
        entries = util.iter_tree_entries(root, on_error, follow_links)
        return self.match_entries(entries, negate=negate)

    def match_tree_files(
        self,
        root: File,
        on_error: Optional[Callable[[OSError], object]] = None,
        follow_links: Optional[bool] = None,
        *,
        negate: Optional[bool] = None,
    ) -> Iterator[str]:
        """The files below a folder, relative to it, that the patterns match; with `negate` the
        others.
        """
        return self.match_files(util.iter_tree_files(root, on_error, follow_links), negate=negate)

    match_tree = match_tree_files

    def check_file(self, file: File, separators: Separators = None) -> CheckResult:
        """What the patterns say of a file, with the index of the one that decides."""
        return CheckResult(file, *self._decided(normalize_file(file, separators)))

    def check_files(
        self, files: Iterable[File], separators: Separators = None
    ) -> Iterator[CheckResult]:
        """The same of several files."""
        for file in several(files):
            yield self.check_file(file, separators)

    def check_tree_files(
        self,
        root: File,
        on_error: Optional[Callable[[OSError], object]] = None,
        follow_links: Optional[bool] = None,
    ) -> Iterator[CheckResult]:
        """The same of the files below a folder, relative to it."""
        return self.check_files(util.iter_tree_files(root, on_error, follow_links))
