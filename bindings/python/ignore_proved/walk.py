"""Walks of a directory on disk."""
from __future__ import annotations

import ctypes
import os
import sys
from ctypes import byref
from errno import EILSEQ
from itertools import repeat
from typing import Any, Callable, Iterator, List, NamedTuple, Optional, Tuple

from . import _library as lib
from ._errors import checked, error_of
from ._names import is_utf8
from ._owner import Owner, handle_of, number
from .guide import DESCENDS, VERDICT, WITHIN, Guide, Listed
from .matcher import Recipe
from .rules import Path
from .tree import Builder, Tree


class Item(NamedTuple):
    """An item of a walk over a tree: an entry, with what is wrong with its files of rules, if
    anything; or an error in an entry's place, and then there is no path.

    `kind` is 1 for a file, 2 for a directory, 3 for a link, 4 for something else, 0 for none.
    """

    path: Optional[str]
    depth: int
    kind: int
    is_followed: bool
    error: Optional[str]


class TreeWalk(Owner):
    """The items of a walk of a builder over a tree, which is made at once."""

    _kind = "walk"

    def __init__(self, builder: Builder, tree: Tree) -> None:
        handle = self._new()
        words = handle_of(Builder, builder), handle_of(Tree, tree), byref(handle)
        checked(lib.library.ignore_walk_new(*words))
        self._own(handle)

    def __iter__(self) -> "TreeWalk":
        return self

    def __next__(self) -> Item:
        entry, room = lib.WalkEntry(), ctypes.create_string_buffer(1024)
        while True:
            code = lib.library.ignore_walk_next(self.handle, byref(entry), room, len(room))
            if code == lib.NONE:
                raise StopIteration
            if code == lib.OK:
                return item_of(entry, room[: entry.path + entry.error])
            if code != lib.ROOM:
                raise error_of(code)
            room = ctypes.create_string_buffer(entry.path + entry.error)


def item_of(entry: lib.WalkEntry, texts: bytes) -> Item:
    """An item of its parts, and of its path and its error, one after the other."""
    error = texts[entry.path:].decode("utf-8") if entry.error else None
    path = texts[: entry.path].decode("utf-8") if entry.is_entry else None
    return Item(path, entry.depth, entry.kind, entry.is_followed, error)


def walk(
    root: Path = ".",
    *,
    sort: bool = False,
    onerror: Optional[Callable[[OSError], object]] = None,
    **settings: Any,
) -> Iterator["os.DirEntry[str]"]:
    """Yields the entries below a directory that no rule ignores, a directory before what is in it.

    The entries are those of `os.scandir`, and come as the system lists them, or by their names with
    `sort`. Their paths are full, and without links. Links aren't followed.

    The settings are those of `Matcher`, as `hidden=False`, `max_depth=2`, `overrides=["*.c"]`. With
    `same_file_system` no directory of another file system is listed. With `limit` LimitError comes
    after so many steps: one for the root, one for each entry of a directory that is listed, one for
    its end.

    Raises OSError where the root isn't a directory that can be listed. Another one is reported to
    `onerror`, and so is an entry whose name isn't UTF-8 (as an OSError of its path, with EILSEQ),
    which isn't yielded; what is in it is. Without `onerror` these are left out.
    """
    if settings.pop("follow_links", False):
        raise TypeError("walk follows no links")
    same, limit = settings.pop("same_file_system", False), settings.pop("limit", None)
    left = None if limit is None else number(limit)
    recipe = Recipe(root, settings)
    how = Listing(sort, onerror, recipe.limits.max_filesize is not None, left)
    with recipe.builder as builder:
        guide = Guide(builder)
    try:
        device = os.stat(recipe.root).st_dev if same else None
        found = how.listed(recipe.root)
        place = guide.root(recipe.root)
        first = Folder(place, recipe.root, iter(how.decided(guide, place, found)))
    except BaseException:
        guide.close()
        raise
    return entries_below(guide, first, how, device)


class Found(NamedTuple):
    """The entries of a directory, and what a guide is told of them."""

    entries: List["os.DirEntry[str]"]
    listed: Listed


class Folder(NamedTuple):
    """A directory that was entered, and its entries with what becomes of each."""

    place: lib.Place
    path: str
    entries: Iterator[Tuple["os.DirEntry[str]", int]]


class Listing(NamedTuple):
    """How directories are listed."""

    sort: bool
    onerror: Optional[Callable[[OSError], object]]
    asks_sizes: bool
    limit: Optional[int]

    def report(self, error: OSError) -> None:
        """Reports an error."""
        if self.onerror is not None:
            self.onerror(error)

    def steps(self) -> Iterator[None]:
        """The steps that may be taken, after which it raises LimitError."""
        times = () if self.limit is None else (min(self.limit, sys.maxsize),)
        yield from repeat(None, *times)
        raise error_of(lib.LIMIT)

    def listed(self, path: str) -> Found:
        """The entries of a directory."""
        with os.scandir(path) as entries:
            found = list(entries)
        if self.sort:
            found.sort(key=lambda entry: os.fsencode(entry.name))
        try:
            are_dirs = [entry.is_dir(follow_symlinks=False) for entry in found]
        except OSError:
            are_dirs = [is_folder(entry) for entry in found]
        return Found(found, Listed.of([entry.name for entry in found], are_dirs))

    def decided(
        self, guide: Guide, place: lib.Place, found: Found
    ) -> Iterator[Tuple["os.DirEntry[str]", int]]:
        """The entries of a directory that was entered, with what becomes of each."""
        sizes = None
        if self.asks_sizes:
            sizes = [size_of(*it) for it in zip(found.entries, found.listed.kinds)]
        return zip(found.entries, guide.decide_all(place, found.listed, sizes))


def is_folder(entry: "os.DirEntry[str]") -> bool:
    """Whether an entry is a directory. One of which that can't be known, as where the system lists
    no kinds and nothing may be asked, counts as none.
    """
    try:
        return entry.is_dir(follow_symlinks=False)
    except OSError:
        return False


def size_of(entry: "os.DirEntry[str]", kind: int) -> int:
    """The size of what isn't a directory, where it is known: of a link, that of its text."""
    try:
        return lib.NO_SIZE if kind == 2 else entry.stat(follow_symlinks=False).st_size
    except OSError:
        return lib.NO_SIZE


def entries_below(
    guide: Guide, first: Folder, how: Listing, device: Optional[int]
) -> Iterator["os.DirEntry[str]"]:
    """Yields the entries below a root. A directory is left after what is in it.

    (Nothing is closed here, since another thread may end it: the guide is freed with this.)
    """
    folders, steps = [first], how.steps()
    next(steps)
    while folders:
        entry, code = next(folders[-1].entries, (None, 0))
        next(steps)
        if entry is None:
            guide.leave(folders.pop().place)
            continue
        if code & VERDICT == lib.IGNORE:
            continue
        if code & WITHIN:
            if is_utf8(entry.name):
                yield entry
            else:
                how.report(OSError(EILSEQ, "the name isn't UTF-8", entry.path))
        if code & DESCENDS:
            try:
                if device is not None and device != os.lstat(entry.path).st_dev:
                    continue
                found = how.listed(entry.path)
            except OSError as error:
                how.report(error)
                continue
            place = guide.enter(folders[-1].place, entry.name, found.listed)
            folders.append(Folder(place, entry.path, how.decided(guide, place, found)))
