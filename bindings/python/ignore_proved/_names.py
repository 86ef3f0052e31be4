"""Names that aren't UTF-8, as the library is told them.

The library's texts are UTF-8. A byte `b` of a name that isn't is told as the private character
U+F700 + b, so U+F780 to U+F7FF; and where a name has such a character itself, each of its bytes is.
So no two names are told as one.
"""
from __future__ import annotations

import os
import re

#: What isn't told as it is: a byte that isn't UTF-8, as Python has it, or such a character.
ODD = re.compile("[\udc80-\udcff\uf780-\uf7ff]")
#: Bytes as they are told.
BYTES = re.compile("[\uf780-\uf7ff]+")
FIRST = 0xF700


def is_utf8(name: str) -> bool:
    """Whether a name of the disk is UTF-8."""
    try:
        return name.isascii() or bool(os.fsencode(name).decode("utf-8"))
    except UnicodeDecodeError:
        return False


def told(path: str) -> str:
    """The text by which the library knows a path of the disk."""
    if path.isascii():
        return path
    text = os.fsencode(path).decode("utf-8", "surrogateescape")
    return ODD.sub(_private, text)


def of_disk(text: str) -> str:
    """The path of the disk that the library knows by a text."""
    if text.isascii():
        return text
    return os.fsdecode(BYTES.sub(_plain, text).encode("utf-8", "surrogateescape"))


def _private(odd: "re.Match[str]") -> str:
    return "".join(chr(FIRST + byte) for byte in odd[0].encode("utf-8", "surrogateescape"))


def _plain(run: "re.Match[str]") -> str:
    return bytes(ord(it) - FIRST for it in run[0]).decode("utf-8", "surrogateescape")
