"""Matchers of single paths: whether a walk from a root would yield them."""
from __future__ import annotations

import ctypes
import os
from contextlib import suppress
from ctypes import byref, c_size_t
from dataclasses import replace
from typing import Any, Dict, List, NamedTuple, Optional, Tuple, Union

from . import _library as lib
from ._decisions import DECISIONS, Decision
from ._errors import InvalidRuleError, TreeError, checked, error_of
from ._names import of_disk, told
from ._owner import Owner, handle_of
from .answers import Cause, Explanation, Match, explanation_of, lengths_of
from .guide import Guide
from .host import FILE, known_env, read
from .rules import Path, encoded, several
from .tree import Builder, Tree, text


#: What a matcher may be given besides the settings of a builder.
CHOICES = ("overrides", "types", "types_not", "type_defs", "lines", "ignore_files")
#: The file by which a tree has lines that are given.
LINES = "/\0lines"


class TreeMatcher(Owner):
    """The matcher of a builder with one root, over trees: each question is handed its tree."""

    _kind = "matcher"

    def __init__(self, builder: Builder, tree: Tree) -> None:
        handle = self._new()
        words = handle_of(Builder, builder), handle_of(Tree, tree), byref(handle)
        checked(lib.library.ignore_matcher_new(*words))
        self._own(handle)

    def match(self, tree: Tree, path: Path, is_dir: bool) -> Match:
        """What becomes of a clean path below the root."""
        given, is_dir, found = encoded(path), bool(is_dir), lib.Found()
        code = lib.library.ignore_matcher_matched(
            self.handle, handle_of(Tree, tree), given, len(given), is_dir, byref(found)
        )
        kind = DECISIONS.get(code)
        if kind is None:
            raise error_of(code)
        return Match(kind, found.should_descend, found.is_within_depth)

    def explain(self, tree: Tree, path: Path, is_dir: bool) -> Explanation:
        """The same, and why."""
        given, is_dir, found, parts = encoded(path), bool(is_dir), lib.Found(), lib.WhyParts()
        handle, at, room = self.handle, handle_of(Tree, tree), ctypes.create_string_buffer(512)
        while True:
            code = lib.library.ignore_matcher_explained(
                handle, at, given, len(given), is_dir, byref(found), byref(parts), room, len(room)
            )
            kind = DECISIONS.get(code)
            if kind is None:
                raise error_of(code)
            whole = sum(lengths_of(parts))
            if whole <= len(room):
                match = Match(kind, found.should_descend, found.is_within_depth)
                return explanation_of(match, parts, room.raw[:whole])
            room = ctypes.create_string_buffer(whole)

    def forget(self, folder: Path = "") -> int:
        """Forgets what is kept of a directory and of those below it, and counts them."""
        count = c_size_t()
        self._call("forget", *text(folder), byref(count))
        return count.value

    def normalize(self, path: Path) -> Optional[str]:
        """The text by which the matcher knows a path; None where it isn't at or below the root."""
        given, room, whole = text(path), ctypes.create_string_buffer(512), c_size_t()
        while True:
            code = lib.library.ignore_matcher_normalize(
                self.handle, *given, room, len(room), byref(whole)
            )
            if code == lib.NONE:
                return None
            checked(code)
            if whole.value <= len(room):
                return room.raw[: whole.value].decode("utf-8")
            room = ctypes.create_string_buffer(whole.value)


class Recipe:
    """A root on disk, without links on its way, and the builder of what was given for it."""

    def __init__(self, root: Path, settings: Dict[str, Any]) -> None:
        self.root = os.path.realpath(path_of(root))
        self.limits = Limits(*(settings.get(name) for name in Limits._fields))
        self.env = known_env()
        chosen = {name: list(several(settings.pop(name, ()))) for name in CHOICES}
        custom = [path_of(name) for name in several(settings.pop("custom_ignore_filenames", ()))]
        self.builder = Builder(told(self.root), **settings).env(**self.env)
        self.builder.set(custom_ignore_filenames=[told(name) for name in custom])
        self._choose(chosen)

    def _choose(self, chosen: Dict[str, List[Any]]) -> None:
        """Has the builder go by what was given besides the settings."""
        builder = self.builder
        if chosen["overrides"]:
            builder.overrides(told(self.root), chosen["overrides"])
        if chosen["types"] or chosen["types_not"]:
            builder.add_all_default_types()
            for definition in chosen["type_defs"]:
                builder.add_type_def(definition)
            builder.choose_types(chosen["types"], chosen["types_not"])
        with Tree("/") as tree:
            for file in chosen["ignore_files"]:
                whole = os.path.join(of_disk(self.env["current_dir"] or "/"), path_of(file))
                builder.add_ignore(tree, tell_file(tree, whole))
            if chosen["lines"]:
                # (no file of the disk has this name, and the rules are relative to the root)
                tree.add_file(LINES, encoded("".join(f"{line}\n" for line in chosen["lines"])))
                builder.current_dir(told(self.root)).add_ignore(tree, LINES)
                builder.current_dir(self.env["current_dir"] or "/")


class Limits(NamedTuple):
    """The limits that a builder was told."""

    min_depth: Optional[int]
    max_depth: Optional[int]
    max_filesize: Optional[int]


def tell_file(tree: Tree, path: str) -> str:
    """Tells a tree a file of the disk, and returns its path there."""
    given, known = read(FILE, path), told(os.path.normpath(path))
    if given.fault is not None:
        raise InvalidRuleError(f"{path}: it can't be read")
    folder = ""
    for name in known.split("/")[1:-1]:
        folder += f"/{name}"
        with suppress(TreeError):
            tree.add_dir(folder)
    try:
        tree.add_file(known, given.content)
    except TreeError:
        tree.rewrite_file(known, given.content)
    return known


#: Where a path stands: a cause for which no rule is asked; the place of its directory; or, where
#: that is ignored, the place of the one around the first ignored directory, and its path.
Stand = Union[Cause, lib.Place, Tuple[lib.Place, str]]


class Kept:
    """What a matcher keeps: a guide, and the directories that were entered, by their paths below
    the root; None is an ignored one. It isn't whole while directories are entered or left: where
    that was interrupted, or somebody asks meanwhile, another is begun.
    """

    def __init__(self, builder: Builder, root: str) -> None:
        self.guide = Guide(builder)
        self.root = root
        self.places: Dict[str, Optional[lib.Place]] = {}
        self._begin()
        self.is_whole = True

    def _begin(self) -> None:
        if os.path.isdir(self.root):
            self.places[""] = self.guide.root(self.root)

    def entered(self, around: lib.Place, path: str) -> Optional[lib.Place]:
        """The place of a directory in another; None where it is ignored."""
        self.is_whole = False
        place, name = self.places.get(path), os.path.basename(path)
        if place is None and path not in self.places:
            if not self.guide.decide(around, name, True).is_ignore:
                place = self.guide.enter(around, name)
            self.places[path] = place
        self.is_whole = True
        return place

    def forget(self, below: str) -> int:
        """Leaves a directory and those below it, so that they are read anew, and counts them."""
        self.is_whole = False
        inside = f"{below}/" if below else ""
        gone = [it for it in self.places if it == below or it.startswith(inside)]
        for path in sorted(gone, key=depth_of, reverse=True):
            place = self.places.pop(path)
            if place is not None:
                self.guide.leave(place)
        if not below:
            self._begin()
        self.is_whole = True
        return len(gone)


class Matcher:
    """Whether a walk of a directory on disk would yield paths below it.

    What decides is read from the disk as it is needed: the directories above the root, and those on
    the way to a path that is asked. What was read is kept until `forget`, or until a question is
    interrupted. The settings are those of `Builder.set`, and besides:

    - `overrides`: globs as of a command line, relative to the root, which whitelist what they
      match, or with a leading `!` ignore it, before anything else decides;
    - `types`, `types_not`: names of file types that are whitelisted, or ignored, of those of
      `Builder.add_all_default_types` and of `type_defs`, as `web:*.{html,css}`;
    - `ignore_files`: paths of files of rules, which are relative to the working directory;
    - `lines`: lines of such a file that are relative to the root, and count after those files.

    It is a context manager; an object is for the thread that made it. Raises InvalidRuleError where
    a glob, a type, a line or a file is invalid.
    """

    def __init__(self, root: Path = ".", **settings: Any) -> None:
        recipe = Recipe(root, settings)
        self.root, self._limits, self._builder = recipe.root, recipe.limits, recipe.builder
        with Tree(recipe.env["current_dir"] or "/") as tree:
            # (by this paths are made clean; it is asked nothing else)
            self._texts = TreeMatcher(self._builder, tree)
        self._kept = Kept(self._builder, self.root)

    def _whole(self) -> Kept:
        """What is kept, or what is begun in its place."""
        if not self._kept.is_whole:
            self._kept = Kept(self._builder, self.root)
        return self._kept

    def match(self, path: Path, is_dir: Optional[bool] = None) -> Match:
        """What becomes of a path, which is below the root, or in it where it is relative.

        Where `is_dir` isn't given, the disk is asked; a link isn't followed then. A path outside of
        the root has no match.
        """
        below = self._below(path)
        if below is None:
            return Match(Decision.NONE, bool(is_dir), True)
        is_dir, kept = self._is_dir(below) if is_dir is None else bool(is_dir), self._whole()
        return self._answer(kept, self._stand(kept, below, is_dir), below, is_dir)

    def explain(self, path: Path, is_dir: Optional[bool] = None) -> Explanation:
        """As `match`, with the reason: the rule, its file and its line, or what else decides."""
        below = self._below(path)
        if below is None:
            return Explanation(Match(Decision.NONE, bool(is_dir), True), Cause.NOT_ASKED)
        is_dir, kept = self._is_dir(below) if is_dir is None else bool(is_dir), self._whole()
        stand = self._stand(kept, below, is_dir)
        if isinstance(stand, Cause):
            return Explanation(self._answer(kept, stand, below, is_dir), stand)
        if isinstance(stand, tuple):
            around, folder = stand
            _, parts, texts = kept.guide.why(around, os.path.basename(folder), True)
            match = self._answer(kept, stand, below, is_dir)
            return replace(explanation_of(match, parts, texts), ancestor=folder)
        size = self._size(below, is_dir)
        return explanation_of(*kept.guide.why(stand, os.path.basename(below), is_dir, size))

    def is_ignored(self, path: Path, is_dir: Optional[bool] = None) -> bool:
        """Whether the path is ignored, or a folder below the root that it is in."""
        return self.match(path, is_dir).is_ignore

    def forget(self, folder: Path = "") -> int:
        """Forgets what is kept of a directory below the root and of those below it, so that it is
        read anew: after its files of rules have changed. It returns how many were kept.
        """
        below = self._below(folder)
        return 0 if below is None else self._whole().forget(below)

    def close(self) -> None:
        """Frees the matcher. After that it isn't used."""
        self._kept.guide.close()
        self._texts.close()
        self._builder.close()

    def __enter__(self) -> "Matcher":
        return self

    def __exit__(self, *raised: object) -> None:
        self.close()

    def _stand(self, kept: Kept, below: str, is_dir: bool) -> Stand:
        """Where a clean path stands. The directories on the way to it are entered."""
        depth, (least, most, _) = depth_of(below), self._limits
        if most is not None and most < depth:
            return Cause.TOO_DEEP
        if not is_dir and least is not None and depth < least:
            return Cause.TOO_SHALLOW
        place = kept.places.get("")
        if place is None or not below:
            return Cause.UNRULED
        folder = os.path.dirname(below)
        known = kept.places.get(folder)
        if known is not None:
            return known
        at = ""
        for name in folder.split("/"):
            at = f"{at}/{name}" if at else name
            found = kept.entered(place, at)
            if found is None:
                return place, at
            place = found
        return place

    def _answer(self, kept: Kept, stand: Stand, below: str, is_dir: bool) -> Match:
        depth, (least, most, _) = depth_of(below), self._limits
        if stand in (Cause.TOO_DEEP, Cause.TOO_SHALLOW):
            return Match(Decision.IGNORE, False, False)
        is_within = least is None or least <= depth
        if isinstance(stand, Cause):
            return Match(Decision.NONE, is_dir and (most is None or depth < most), is_within)
        if isinstance(stand, tuple):
            return Match(Decision.IGNORE, False, is_within)
        name = os.path.basename(below)
        return kept.guide.decide(stand, name, is_dir, self._size(below, is_dir))

    def _size(self, below: str, is_dir: bool) -> Optional[int]:
        """The size of what is there, where it matters: of a link, that of its text."""
        if self._limits.max_filesize is None or is_dir:
            return None
        try:
            return os.lstat(os.path.join(self.root, below)).st_size
        except (OSError, ValueError):
            return None

    def _is_dir(self, below: str) -> bool:
        """Whether the disk has a directory there, and no link."""
        whole = os.path.join(self.root, below)
        return os.path.isdir(whole) and not os.path.islink(whole)

    def _below(self, path: Path) -> Optional[str]:
        """A path, clean and relative to the root; None where it isn't at or below the root."""
        whole = os.path.join(self.root, path_of(path))
        below = self._texts.normalize(told(whole))
        return None if below is None else of_disk(below)


def depth_of(below: str) -> int:
    """How many names a clean path has."""
    return below.count("/") + 1 if below else 0


def path_of(path: Path) -> str:
    """A path as the system's calls have it."""
    return os.fsdecode(encoded(path))
