"""Rules of gitignore files, asked about paths."""
from __future__ import annotations

import ctypes
import os
from ctypes import byref, c_size_t
from typing import Any, Iterable, List, NamedTuple, Optional, Tuple, TypeVar, Union

from . import _library as lib
from ._decisions import DECISIONS, Decision
from ._errors import InvalidRuleError, checked, error_of
from ._owner import Owner, handle_of
from .every import LIMIT, Difference, Finding, Findings, difference_of

Path = Union[str, bytes, "os.PathLike[str]", "os.PathLike[bytes]"]
T = TypeVar("T")


class Reason(NamedTuple):
    """The rule that decided: its line, and the glob that the line stands for.

    `line` is None where the number of the line isn't known, and `source` where none was given.
    """

    pattern: str
    glob: str
    source: Optional[str]
    line: Optional[int]
    is_only_dir: bool


class Answer(NamedTuple):
    """What rules say of a path, and the rule that decided, if one did."""

    decision: Decision
    reason: Optional[Reason]

    @property
    def is_ignore(self) -> bool:
        """Whether the path is ignored."""
        return self.decision is Decision.IGNORE

    @property
    def is_whitelist(self) -> bool:
        """Whether the path is whitelisted."""
        return self.decision is Decision.WHITELIST

    @property
    def is_none(self) -> bool:
        """Whether no rule decides."""
        return self.decision is Decision.NONE

    def __bool__(self) -> bool:
        return self.is_ignore


NO_MATCH = Answer(Decision.NONE, None)
ALONE = lib.library.ignore_rules_matched
AS_GIT = lib.library.ignore_rules_matched_as_git


def encoded(path: Path) -> bytes:
    """The bytes of a path, as plain `bytes`, whose length is theirs."""
    path = path if type(path) is str else os.fspath(path)
    if isinstance(path, str):
        return str.encode(path, "utf-8", "surrogateescape")
    return plain(path)


def plain(given: bytes) -> bytes:
    """Bytes as plain `bytes`, whose length is theirs."""
    return given if type(given) is bytes else bytes(memoryview(given))


def several(texts: Iterable[T]) -> Iterable[T]:
    """Several texts. Raises TypeError where it is one text, whose characters would be meant."""
    if isinstance(texts, (str, bytes)):
        raise TypeError(f"several texts are wanted, and not the text {texts!r}")
    return texts


class Rules(Owner):
    """Rules relative to a root, as lines of gitignore files give them, in order.

    Lines and files are added first. The first question builds the matcher, and after that no line
    is added. It is a context manager; without `with` it is freed when it is collected. An object is
    for the thread that made it.
    """

    _kind = "rules"
    #: Where calls write texts. (A call takes it away, so that one inside of it has its own.)
    _room: Any = None

    def __init__(
        self,
        root: Path = "",
        lines: Iterable[str] = (),
        *,
        case_insensitive: bool = False,
        allow_unclosed_class: bool = True,
        git_trailing_spaces: bool = False,
    ) -> None:
        self._is_built = False
        name, handle = encoded(root), self._new()
        options = lib.RuleOptions(case_insensitive, allow_unclosed_class, git_trailing_spaces)
        checked(lib.library.ignore_rules_new(name, len(name), byref(options), byref(handle)))
        self._own(handle)
        for line in several(lines):
            self.add_line(line)

    @classmethod
    def from_file(cls, path: Path, **options: Any) -> "Rules":
        """The rules of a file on disk, relative to its directory.

        Raises OSError where it can't be read, and InvalidRuleError where some line is invalid.
        """
        name = os.fsdecode(encoded(path))
        rules = cls(os.path.dirname(name), **options)
        try:
            with open(name, "rb") as file:
                rules.add_file(name, file.read())
        except BaseException:
            rules.close()
            raise
        return rules

    def set_options(
        self,
        *,
        case_insensitive: bool = False,
        allow_unclosed_class: bool = True,
        git_trailing_spaces: bool = False,
    ) -> "Rules":
        """Sets how later lines are read; what isn't given is as at first."""
        options = lib.RuleOptions(case_insensitive, allow_unclosed_class, git_trailing_spaces)
        self._call("set_options", byref(options))
        return self

    def add_line(self, line: str, source: str = "") -> "Rules":
        """Adds a line, as in gitignore(5); its source is told with its rule.

        Raises InvalidRuleError where its glob is invalid; then nothing is added.
        """
        text, origin = encoded(line), encoded(source)
        self._added(
            lib.library.ignore_rules_add_line(
                self.handle, origin, len(origin), text, len(text)
            )
        )
        return self

    def add_file(self, path: Path, text: Union[str, bytes]) -> "Rules":
        """Adds the lines of a text that stands for the file at a path.

        Raises InvalidRuleError where some line is invalid; then the others are added.
        """
        name, content = encoded(path), encoded(text)
        self._added(
            lib.library.ignore_rules_add_file(
                self.handle, name, len(name), content, len(content)
            )
        )
        return self

    def match(self, path: Path, is_dir: bool = False) -> Answer:
        """What the rules say of a path, with the rule that decided.

        It is the answer for this path alone: below an ignored directory there may be none.
        """
        return self._answer(lib.library.ignore_rules_decided, path, is_dir)

    def match_path_or_any_parents(self, path: Path, is_dir: bool = False) -> Answer:
        """The same of the path, or else of the nearest of its parents that has a match.

        Raises OutsideError where the path, without the root, begins with a slash.
        """
        ask = lib.library.ignore_rules_decided_path_or_any_parents
        return self._answer(ask, path, is_dir)

    def is_ignored(self, path: Path, is_dir: bool = False) -> bool:
        """Whether the rules ignore the path, or a folder that it is in, as git does.

        The folders below the root are asked from the top down, and an ignored one decides, whatever
        is said of what it holds. The root itself isn't asked.
        """
        text, is_dir = encoded(path), bool(is_dir)
        code: int = AS_GIT(self.built(), text, len(text), is_dir)
        if code not in (lib.NONE, lib.IGNORE, lib.WHITELIST):
            raise error_of(code)
        return code == lib.IGNORE

    def match_line(self, path: Path, is_dir: bool = False) -> Tuple[Decision, int]:
        """What the rules say of this path alone, with the number of the line that decided, as it
        stood in the text of `add_file`, and else 0; without its texts, which costs less.
        """
        text, parts = encoded(path), lib.ReasonParts()
        code = lib.library.ignore_rules_decided(
            self.built(), text, len(text), bool(is_dir), byref(parts), b"", 0
        )
        kind = DECISIONS.get(code)
        if kind is None:
            raise error_of(code)
        return kind, parts.line

    def match_as_git(self, path: Path, is_dir: bool = False) -> Answer:
        """What git says of a path: that of the first ignored folder on the way from the root, which
        isn't asked itself, and else that of the path.
        """
        return self._answer(lib.library.ignore_rules_decided_as_git, path, is_dir)

    def rules(self) -> List[Answer]:
        """All rules, in their order: whether each ignores or whitelists, and its parts."""
        return [self._listed(index) for index in range(len(self))]

    def findings(self, *, limit: int = LIMIT) -> List[Finding]:
        """The rules that decide on no path which the list reaches, in their order, and why.

        >>> lines = ["build/", "!build/keep", "a.o", "*.o"]
        >>> with Rules("", lines) as rules:
        ...     for it in rules.findings():
        ...         print(lines[it.rule], it.why.name, it.overruled_by, it.path, it.folder)
        !build/keep BY_FOLDERS () build/keep build
        a.o OVERRULED (3,) None None

        `limit` is how many states are found at most. Raises LimitError where more are needed.
        """
        with Findings(self.built(), limit) as findings:
            return findings.all()

    def dead(self, *, limit: int = LIMIT) -> List[Answer]:
        """The rules that decide on no path which the list reaches, as `rules` lists them.

        >>> with Rules("", ["*.o", "a.o", "*.o"]) as rules:
        ...     [it.reason.pattern for it in rules.dead()]
        ['*.o', 'a.o']

        Raises as `findings`.
        """
        return [self._listed(it.rule) for it in self.findings(limit=limit)]

    def difference(
        self, other: "Rules", *, only_ignored: bool = False, limit: int = LIMIT
    ) -> Optional[Difference]:
        """A shortest path of which this list and another don't say the same, each at its own root,
        and what each says; None where they say the same of every path.

        With `only_ignored` a path that a list whitelists counts as one on which no rule decides.

        >>> with Rules("", ["*.o"]) as before, Rules("", ["*.o", "!a.o"]) as after:
        ...     found = before.difference(after)
        >>> found.path, found.before.decision.name, found.after.decision.name, found.after.rule
        ('a.o', 'IGNORE', 'WHITELIST', 1)

        Raises as `findings`.
        """
        handle_of(Rules, other)
        own = self.built()
        return None if other is self else difference_of(own, other.built(), only_ignored, limit)

    def same_as(
        self, other: "Rules", *, only_ignored: bool = False, limit: int = LIMIT
    ) -> bool:
        """Whether this list and another say the same of every path, each at its own root.

        >>> with Rules("", ["a/", "b/"]) as one, Rules("", ["b/", "a/", "!a"]) as two:
        ...     one.same_as(two), one.same_as(one)
        (False, True)

        What `only_ignored` means, and what it raises, is as of `difference`.
        """
        return self.difference(other, only_ignored=only_ignored, limit=limit) is None

    @property
    def num_ignores(self) -> int:
        """How many rules ignore what they match."""
        return int(self._counts().ignores)

    @property
    def num_whitelists(self) -> int:
        """How many rules whitelist what they match."""
        return int(self._counts().whitelists)

    def __len__(self) -> int:
        counts = self._counts()
        return int(counts.ignores + counts.whitelists)

    def built(self) -> Any:
        """The handle's address, once the matcher is built, which takes no line any more."""
        if not self._is_built:
            code = lib.library.ignore_rules_build(self.handle)
            # (it is MISUSED where it was built already, by a call that was interrupted then)
            if code != lib.MISUSED:
                checked(code)
            self._is_built = True
        return self.handle

    def _added(self, code: int) -> None:
        if code == lib.REFUSED:
            raise InvalidRuleError(self._problem())
        checked(code)

    def _problem(self) -> str:
        whole, room = c_size_t(), ctypes.create_string_buffer(1024)
        while True:
            self._call("problem", room, len(room), byref(whole))
            if whole.value <= len(room):
                return room.raw[: whole.value].decode("utf-8")
            room = ctypes.create_string_buffer(whole.value)

    def _answer(self, ask: Any, path: Path, is_dir: bool) -> Answer:
        text, is_dir = encoded(path), bool(is_dir)
        return self._told(ask, text, len(text), is_dir)

    def _listed(self, index: int) -> Answer:
        return self._told(lib.library.ignore_rules_rule, index)

    def _told(self, ask: Any, *words: object) -> Answer:
        """What a call answers that tells a rule."""
        handle, parts = self.built(), lib.ReasonParts()
        room, self._room = self._room or ctypes.create_string_buffer(1024), None
        while True:
            code = ask(handle, *words, byref(parts), room, len(room))
            whole = parts.source + parts.pattern + parts.glob
            if whole <= len(room):
                break
            room = ctypes.create_string_buffer(whole)
        texts, self._room = room[:whole], room
        if code == lib.NONE:
            return NO_MATCH
        if code not in (lib.IGNORE, lib.WHITELIST):
            raise error_of(code)
        return Answer(Decision(code), reason_of(parts, texts))

    def _counts(self) -> lib.Counts:
        counts = lib.Counts()
        checked(lib.library.ignore_rules_counts(self.built(), byref(counts)))
        return counts


def reason_of(parts: lib.ReasonParts, texts: bytes) -> Reason:
    """The reason of its parts, and of its source, its line and its glob, one after the other."""
    end = parts.source + parts.pattern
    return Reason(
        pattern=texts[parts.source:end].decode("utf-8"),
        glob=texts[end:].decode("utf-8"),
        source=texts[: parts.source].decode("utf-8") if parts.has_source else None,
        line=parts.line or None,
        is_only_dir=parts.is_only_dir,
    )
