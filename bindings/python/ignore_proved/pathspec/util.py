"""What goes with patterns: paths as they are matched, and the files of a folder."""
from __future__ import annotations

import os
import stat
from typing import (
    Any, Callable, Collection, Dict, Iterable, Iterator, List, NamedTuple, Optional, Set, Tuple,
    TypeVar, Union,
)

from ..rules import several
from .pattern import Pattern
from .patterns.gitwildmatch import GitWildMatchPattern

File = Union[str, bytes, "os.PathLike[str]", "os.PathLike[bytes]"]
F = TypeVar("F", bound=File)

_factories: Dict[str, Callable[[Any], Pattern]] = {
    "gitwildmatch": GitWildMatchPattern,
    "gitignore": GitWildMatchPattern,
}


#: What is replaced by slashes where no separators are given: nothing, on a system that has slashes.
NORMALIZE_PATH_SEPS: List[str] = []


class AlreadyRegisteredError(Exception):
    """A kind of patterns has the name already."""

    def __init__(self, name: str, pattern_factory: Callable[[Any], Pattern]) -> None:
        super().__init__(name, pattern_factory)
        self.name, self.pattern_factory = name, pattern_factory

    @property
    def message(self) -> str:
        """What is wrong."""
        return f"{self.name!r} is the name of {self.pattern_factory!r} already"


class RecursionError(Exception):
    """A link that is followed leads to a folder that it is in."""

    def __init__(self, real_path: str, first_path: str, second_path: str) -> None:
        super().__init__(real_path, first_path, second_path)
        self.real_path, self.first_path, self.second_path = real_path, first_path, second_path

    @property
    def message(self) -> str:
        """What is wrong."""
        return f"{self.real_path!r} is {self.first_path!r}, and {self.second_path!r} below it"


def register_pattern(
    name: str, pattern_factory: Callable[[Any], Pattern], override: Optional[bool] = None
) -> None:
    """Names a kind of patterns. Raises AlreadyRegisteredError where one has the name."""
    if name in _factories and not override:
        raise AlreadyRegisteredError(name, _factories[name])
    _factories[name] = pattern_factory


def lookup_pattern(name: str) -> Callable[[Any], Pattern]:
    """The kind of patterns of a name. Raises KeyError where there is none."""
    return _factories[name]


def factory_of(given: Any) -> Callable[[Any], Pattern]:
    """The kind of patterns that a name or a callable stands for."""
    factory = lookup_pattern(given) if isinstance(given, str) else given
    if not callable(factory):
        raise TypeError(f"a kind of patterns is wanted, and not {given!r}")
    return factory  # type: ignore[no-any-return]


def normalize_file(file: File, separators: Optional[Collection[str]] = None) -> str:
    r"""A path as it is matched: with slashes in place of the separators, and without one slash or
    one `./` at its start.

        >>> normalize_file("./a"), normalize_file(b"/a/b"), normalize_file(r"a\b", ["\\"])
        ('a', 'a/b', 'a/b')
    """
    text = file if isinstance(file, str) else os.fsdecode(file)
    for separator in separators or ():
        text = text.replace(separator, "/")
    if text.startswith("/"):
        return text[1:]
    return text[2:] if text.startswith("./") else text


def normalize_files(
    files: Iterable[F], separators: Optional[Collection[str]] = None
) -> Dict[str, List[F]]:
    """Files by their paths as they are matched."""
    found: Dict[str, List[F]] = {}
    for file in several(files):
        found.setdefault(normalize_file(file, separators), []).append(file)
    return found


def match_file(patterns: Iterable[Pattern], file: str) -> bool:
    """Whether patterns match a path, as a PathSpec of them does."""
    from .pathspec import PathSpec

    return PathSpec(patterns).match_file(file)


def match_files(patterns: Iterable[Pattern], files: Iterable[F]) -> Set[F]:
    """The files that patterns match, as a PathSpec of them does."""
    from .pathspec import PathSpec

    return set(PathSpec(patterns).match_files(files))


def append_dir_sep(path: "os.PathLike[str]") -> str:
    """A path, with a slash where it is a folder."""
    text = os.fspath(path)
    return text + os.sep if os.path.isdir(text) else text


class TreeEntry:
    """An entry of a folder, by its path relative to the folder at the top."""

    __slots__ = ("name", "path", "_lstat", "_stat")

    def __init__(
        self, name: str, path: str, lstat: os.stat_result, stat: os.stat_result
    ) -> None:
        self.name, self.path, self._lstat, self._stat = name, path, lstat, stat

    def is_dir(self, follow_links: Optional[bool] = None) -> bool:
        """Whether it is a folder; a link is followed unless that is False."""
        return stat.S_ISDIR(self.stat(follow_links).st_mode)

    def is_file(self, follow_links: Optional[bool] = None) -> bool:
        """Whether it is a file; a link is followed unless that is False."""
        return stat.S_ISREG(self.stat(follow_links).st_mode)

    def is_symlink(self) -> bool:
        """Whether it is a link."""
        return stat.S_ISLNK(self._lstat.st_mode)

    def stat(self, follow_links: Optional[bool] = None) -> os.stat_result:
        """What the system says of it; a link is followed unless that is False."""
        return self._lstat if follow_links is False else self._stat


#: A folder by the numbers of its device and its inode.
_Key = Tuple[int, int]


class _Folder(NamedTuple):
    path: str
    key: _Key
    entries: Iterator["os.DirEntry[str]"]


def _listed(root: str, path: str, above: Dict[_Key, str]) -> _Folder:
    whole = os.path.join(root, path)
    own = os.stat(whole)
    key = own.st_dev, own.st_ino
    if key in above:
        raise RecursionError(os.path.realpath(whole), above[key], path)
    with os.scandir(whole) as entries:
        folder = _Folder(path, key, iter(list(entries)))
    above[key] = path
    return folder


def iter_tree_entries(
    root: File,
    on_error: Optional[Callable[[OSError], object]] = None,
    follow_links: Optional[bool] = None,
) -> Iterator[TreeEntry]:
    """The files and folders below a folder, a folder before what is in it. Links are followed
    unless `follow_links` is False. What the system can't say or list is reported to `on_error`, and
    left out.

    Raises OSError where the folder itself can't be listed, and RecursionError where a link leads to
    a folder that it is in.
    """
    report = on_error or (lambda error: None)
    above: Dict[_Key, str] = {}
    top = os.path.abspath(os.fsdecode(root))
    folders: List[_Folder] = [_listed(top, "", above)]
    while folders:
        folder = folders[-1]
        entry = next(folder.entries, None)
        if entry is None:
            del above[folders.pop().key]
            continue
        path = os.path.join(folder.path, entry.name)
        try:
            found = TreeEntry(entry.name, path, *_stats(entry))
        except OSError as error:
            report(error)
            continue
        is_dir = found.is_dir(follow_links)
        if is_dir or found.is_file() or found.is_symlink():
            yield found
        if is_dir:
            try:
                folders.append(_listed(top, path, above))
            except OSError as error:
                report(error)


def _stats(entry: "os.DirEntry[str]") -> Tuple[os.stat_result, os.stat_result]:
    own = entry.stat(follow_symlinks=False)
    return own, entry.stat() if entry.is_symlink() else own


def iter_tree_files(
    root: File,
    on_error: Optional[Callable[[OSError], object]] = None,
    follow_links: Optional[bool] = None,
) -> Iterator[str]:
    """The paths of the files below a folder, relative to it, as by `iter_tree_entries`."""
    for entry in iter_tree_entries(root, on_error, follow_links):
        if not entry.is_dir(follow_links):
            yield entry.path


#: The older name.
iter_tree = iter_tree_files
