"""Lines as git reads them, as lines of the library's dialect, which differ in these:

- braces are characters like others to git, and a run of three or more stars is one of two;
- in a class of git's a backslash escapes, `[:alpha:]` and the like are kinds of characters, and a
  range to a lower character has its first alone; no class matches `/`;
- a line that git can't read matches nothing: one with an unclosed class, a backslash at its end, an
  unknown kind of characters, or nothing after its `!`.
"""
from __future__ import annotations

import string
from typing import Dict, List, Optional, Tuple

Ranges = List[Tuple[int, int]]

#: The kinds of characters in classes, all ASCII.
KINDS: Dict[str, str] = {
    "alnum": string.ascii_letters + string.digits,
    "alpha": string.ascii_letters,
    "blank": " \t",
    "cntrl": "".join(map(chr, range(32))) + "\x7f",
    "digit": string.digits,
    "graph": "".join(map(chr, range(33, 127))),
    "lower": string.ascii_lowercase,
    "print": "".join(map(chr, range(32, 127))),
    "punct": string.punctuation,
    "space": " \t\n\r",
    "upper": string.ascii_uppercase,
    "xdigit": string.hexdigits,
}
#: Characters of classes that have a place of their own where they are written.
PLACED = "]-!^/"


class Unreadable(Exception):
    """git can't read the line."""


def trimmed(line: str) -> str:
    """A line without the spaces at its end, but for one that a backslash escapes."""
    kept = line.rstrip(" ")
    is_escaped = (len(kept) - len(kept.rstrip("\\"))) % 2
    return kept + " " if is_escaped and kept != line else kept


def of_git(line: str) -> Optional[str]:
    """The line of the dialect by which a line of git's is asked; None where it matches nothing."""
    line = trimmed(line)
    if not line or line.startswith("#"):
        return None
    is_negated = line.startswith("!")
    body = line[1:] if is_negated else line
    begin = "\\" if body.startswith(("\\!", "\\#")) else ""
    glob = body[len(begin):]
    end = "/" if glob.endswith("/") else ""
    glob = glob[:len(glob) - len(end)]
    try:
        text = begin + translated(glob)
    except Unreadable:
        return None
    if not glob:
        return None
    # (a slash counts that git sees, and no other)
    sees, has = "/" in glob, "/" in text
    depth = "" if sees == has else "/" if sees else "**/"
    return ("!" if is_negated else "") + depth + text + end


def translated(glob: str) -> str:
    """A glob of git's in the dialect."""
    out, at = [], 0
    while at < len(glob):
        c = glob[at]
        at += 1
        if c == "\\":
            if at == len(glob):
                raise Unreadable
            out.append("[\\]" if glob[at] == "\\" else c + glob[at])
            at += 1
        elif c in "{}":
            out.append("\\" + c)
        elif c == "*":
            is_run = glob.startswith("*", at)
            while glob.startswith("*", at):
                at += 1
            out.append("**" if is_run else "*")
        elif c == "[":
            text, at = class_at(glob, at)
            out.append(text)
        else:
            out.append(c)
    return "".join(out)


def class_at(glob: str, at: int) -> Tuple[str, int]:
    """The class that begins after a `[`, in the dialect, and where it ends."""
    is_negated = glob[at:at + 1] in ("!", "^")
    ranges, end = members(glob, at + is_negated)
    return written(ranges, is_negated), end


def members(glob: str, at: int) -> Tuple[Ranges, int]:
    """The members of a class, and where it ends."""
    ranges: Ranges = []
    first, before, close = at, "", at
    while at == first or glob[at:at + 1] != "]":
        c, after = character(glob, at)
        if c == "-" and glob[at] == "-" and before and glob[after:after + 1] not in ("", "]"):
            c, at = character(glob, after)
            ranges.append((ord(before), ord(c)))
            before = ""
            continue
        kind = None
        if glob.startswith("[:", at):
            close = close if close >= at + 2 else glob.find("]", at + 2)
            kind = kind_of(glob, at + 2, close)
        if kind is not None:
            ranges += [(ord(it), ord(it)) for it in kind]
            before, at = "", close + 1
        else:
            ranges.append((ord(c), ord(c)))
            before, at = c, after
    return [it for it in ranges if it[0] <= it[1]], at + 1


def character(glob: str, at: int) -> Tuple[str, int]:
    """The character at a place in a class, which a backslash may escape, and the place after it."""
    at += glob.startswith("\\", at)
    if at >= len(glob):
        raise Unreadable
    return glob[at], at + 1


def kind_of(glob: str, at: int, close: int) -> Optional[str]:
    """The characters of a kind, as of `alpha:` before the next `]`; None where none is named."""
    if close < 0:
        raise Unreadable
    if close == at or glob[close - 1] != ":":
        return None
    try:
        return KINDS[glob[at:close - 1]]
    except KeyError:
        raise Unreadable from None


def written(ranges: Ranges, is_negated: bool) -> str:
    """A class of the dialect with these members, but for `/`, which no class of git's matches."""
    placed = [c for c in PLACED if c != "/" and any(a <= ord(c) <= b for a, b in ranges)]
    rest = "".join(piece for a, b in ranges for piece in without_placed(a, b))
    if is_negated:
        inside = "]" * ("]" in placed) + rest + "/" + "".join(c for c in placed if c not in "]-")
        return f"[!{inside}{'-' * ('-' in placed)}]"
    if not rest and not placed:
        raise Unreadable
    if rest or "]" in placed:
        others = "".join(c for c in placed if c not in "]-")
        return f"[{']' * (']' in placed)}{rest}{others}{'-' * ('-' in placed)}]"
    return "{" + ",".join("\\" + c for c in placed) + "}"


def without_placed(first: int, last: int) -> List[str]:
    """A range, in parts without the characters that have a place of their own."""
    parts, begin = [], first
    for stop in [*sorted(ord(c) for c in PLACED if first <= ord(c) <= last), last + 1]:
        if begin < stop:
            parts.append(chr(begin) if begin == stop - 1 else f"{chr(begin)}-{chr(stop - 1)}")
        begin = stop + 1
    return parts
