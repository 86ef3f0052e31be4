"""Lines of gitignore files, read as git reads them: a handle of the library for each thread."""
from __future__ import annotations

import os
import threading
from ctypes import byref
from typing import Any, Dict, Iterator, NamedTuple, Optional, Sequence, Union

from .. import _library as lib
from .._errors import error_of
from .._names import told
from ..rules import ALONE, Rules
from ._git import of_git, trimmed


class Decided(NamedTuple):
    """Whether lines include a path, if one decides, and which does."""

    include: Optional[bool]
    at: Optional[int]


class Said(NamedTuple):
    """What is said of a path, and the number of the line that says it; 0 where none does."""

    code: int
    line: int


NONE, IGNORE, WHITELIST = lib.NONE, lib.IGNORE, lib.WHITELIST
NOTHING = Said(NONE, 0)
DECIDED = lib.library.ignore_rules_decided
#: Of how many folders a thread keeps what is said of them, and how long their paths may be.
MOST_FOLDERS, LONGEST = 4096, 1024


def line_of(line: Union[str, bytes]) -> str:
    """A line without its end, and without the spaces there that git doesn't read."""
    text = os.fsdecode(line)
    text = text[:-1] if text.endswith("\n") else text
    return trimmed(text[:-1] if text.endswith("\r") else text)


def is_blank(line: str) -> bool:
    """Whether a line is none of a pattern: blank, or a comment."""
    return not line or line.startswith("#")


def positive(line: str) -> str:
    """A line without its `!`, if it has one."""
    if not line.startswith("!"):
        return line
    return f"\\{line[1:]}" if line[1:].startswith(("!", "#")) else line[1:]


def text_of(lines: Sequence[str]) -> str:
    """The text of a file of rules that has these lines, in the library's dialect; an empty line for
    one that matches nothing.
    """
    texts = (of_git(told(line)) or "" for line in lines)
    # (of a line's end the library reads a carriage return too, and no line has a newline inside)
    ended = (f"{text}\r" if text.endswith("\r") else text for text in texts)
    return "\n".join("" if "\n" in text else text for text in ended) + "\n"


class Own(threading.local):
    """What a thread has of some lines: their rules, once it asks, and what is said of folders."""

    rules: Optional[Rules] = None
    handle: Any = None

    def __init__(self) -> None:
        self.folders: Dict[bytes, Said] = {}

    def begin(self, lines: Sequence[str]) -> Any:
        """Makes the rules, and returns their handle."""
        self.rules = Rules("", git_trailing_spaces=True)
        self.rules.add_file("", text_of(lines))
        self.handle = self.rules.built()
        return self.handle

    def keep(self, folder: bytes, said: Said) -> None:
        """Keeps what is said of a folder."""
        if len(self.folders) >= MOST_FOLDERS:
            self.folders.clear()
        if len(folder) <= LONGEST:
            self.folders[folder] = said


class Lines:
    """Some lines, asked about paths. A path's last `/` says that it is a folder. The empty path,
    and `.`, is what they are relative to, and isn't matched.

    From the top down the first ignored folder that a path is in decides, and else its own last
    line; otherwise the last line that matches the path, or a folder that it is in. What is said of
    folders is kept, so that a path takes one call of the library.
    """

    def __init__(self, lines: Sequence[str], is_from_the_top: bool = False) -> None:
        self._lines = lines
        self._is_from_the_top = is_from_the_top
        self._own = Own()

    def includes(self, path: str, is_dir: bool = False) -> bool:
        """Whether the line that decides on a path, if one does, isn't negated."""
        if path.endswith("/"):
            path, is_dir = path.rstrip("/"), True
        if not path or path == ".":
            return False
        own, text = self._own, path.encode() if path.isascii() else told(path).encode()
        handle = own.handle or own.begin(self._lines)
        # (what decides most paths is all here, since a call of Python's costs as much as it does)
        above = own.folders.get(text.rpartition(b"/")[0]) or self._learned(own, text)
        if above.code == IGNORE and self._is_from_the_top:
            return True
        code: int = ALONE(handle, text, len(text), is_dir)
        if code == NONE:
            return above.code == IGNORE
        if code == above.code or not above.line or self._is_from_the_top:
            return checked(code) == IGNORE
        return self._joined(own, above, text, is_dir).code == IGNORE

    def decided(self, path: str, is_dir: bool = False) -> Decided:
        """What is said of a path, with the line that decides."""
        if path.endswith("/"):
            path, is_dir = path.rstrip("/"), True
        if not path or path == ".":
            return Decided(None, None)
        own, text = self._own, told(path).encode()
        above = own.folders.get(text.rpartition(b"/")[0]) or self._learned(own, text)
        code, line = self._joined(own, above, text, is_dir)
        return Decided(code == IGNORE, line - 1) if line else Decided(None, None)

    def _joined(self, own: Own, above: Said, text: bytes, is_dir: bool) -> Said:
        """What is said of a path, by what is said of the folder that it is in."""
        if above.code == IGNORE and self._is_from_the_top:
            return above
        handle = own.handle or own.begin(self._lines)
        if ALONE(handle, text, len(text), is_dir) == NONE:
            return NOTHING if self._is_from_the_top else above
        parts = lib.ReasonParts()
        code = DECIDED(handle, text, len(text), is_dir, byref(parts), b"", 0)
        if above.line > parts.line and not self._is_from_the_top:
            return above
        return Said(checked(code), parts.line)

    def _learned(self, own: Own, text: bytes) -> Said:
        """What is said of the folder that a path is in, asked from the top down."""
        folder, said = text.rpartition(b"/")[0], NOTHING
        above = own.folders.get(folder.rpartition(b"/")[0])
        if above is not None and not text.startswith((b"/", b"./")):
            said = self._joined(own, above, folder, True) if folder else NOTHING
        else:
            for each in folders_of(text):
                said = own.folders.get(each) or self._joined(own, said, each, True)
                own.keep(each, said)
        own.keep(folder, said)
        return said


def folders_of(path: bytes) -> Iterator[bytes]:
    """The folders that a path is in, from the top down, which itself isn't one."""
    begin = 2 if path.startswith(b"./") else 0
    end = path.find(b"/", begin + path.startswith(b"/", begin) + 1)
    while end >= 0:
        yield path[:end]
        end = path.find(b"/", end + 1)


def checked(code: int) -> int:
    """What rules say of a path. Raises the error, if it is one."""
    if code not in (NONE, IGNORE, WHITELIST):
        raise error_of(code)
    return code
