"""What is checked of the pages that are written by hand: cells of tables are short; links lead
somewhere; each piece of Rattle in CALLING stands, word for word, in a program that the gate proves
and runs, or in one that isn't proved yet; and each public type of `ignore` stands in one that CALLING shows or links.
"""
import os
import re
import textwrap

from repo import TOP, read
from surface import FACE, reexports
from sources import Surface

# The greatest length of a cell, in characters.
LONGEST = 200
CALLING = "docs/CALLING.md"
# The programs that have its pieces, and the one of which it has a piece of each file, or a link to it.
PROGRAMS = "crates/example", "examples/calling"
SHOWN = "examples/calling"
# Types that a caller meets in contracts alone (`Callbacks`, `Owner`, `Stat`), as the closures of
# a builder's setters, or inside of what waits for a host's answer.
UNNAMED = "Callbacks", "Compare", "Keep", "Owner", "files::Stat", "guide::Call", "guide::Told"


def pages():
    """The pages, by their paths."""
    found = [it for it in os.listdir(TOP) if it.endswith(".md")] + [f"docs/{it}" for it in os.listdir(f"{TOP}/docs") if it.endswith(".md")]
    return sorted([*found, "bindings/README.md", "bindings/ignore/README.md"])


def prose(text):
    """The lines of a page that stand in no block of code, with their numbers."""
    is_code = False
    for number, line in enumerate(text.split("\n"), 1):
        if line.lstrip().startswith("```"):
            is_code = not is_code
        elif not is_code and not line.startswith("    "):
            yield number, line


def long_cells(page):
    """The cells of a page's tables that are too long."""
    for number, line in prose(read(f"{TOP}/{page}")):
        cells = re.split(r"(?<!\\)\|", line)[1:-1] if line.startswith("|") else []
        for cell in cells:
            if len(cell.strip()) > LONGEST:
                yield f"{page}, line {number}: a cell has {len(cell.strip())} characters, and not {LONGEST} at most"


# Links


def anchors(page):
    """The anchors of a page's headings."""
    heads = [it[1] for _, line in prose(read(page)) if (it := re.match(r"#+ (.*)", line))]
    return {re.sub(r"[^\w\- ]", "", it.lower()).replace(" ", "-") for it in heads}


def lost_links(page):
    """The links of a page that lead to no file, or to no heading."""
    for number, line in prose(read(f"{TOP}/{page}")):
        for link in re.findall(r"\]\(([^)\s]+)\)", line):
            path, _, anchor = link.partition("#")
            if ":" in path:
                continue
            file = os.path.normpath(f"{TOP}/{os.path.dirname(page)}/{path}") if path else f"{TOP}/{page}"
            if not os.path.exists(file) or anchor and anchor not in anchors(file):
                yield f"{page}, line {number}: nothing is at {link}"


# Pieces of Rattle


def pieces():
    """The blocks of Rattle in CALLING, without what they are indented by."""
    return [textwrap.dedent(it) for it in re.findall(r"^```rust\n(.*?)^```$", read(f"{TOP}/{CALLING}"), re.M | re.S)]


def programs():
    """The files of the programs, each as its text, by their paths."""
    found = {}
    for name in PROGRAMS:
        for at, _, files in os.walk(f"{TOP}/{name}/src"):
            found |= {os.path.relpath(f"{at}/{it}", TOP): read(f"{at}/{it}") for it in sorted(files) if it.endswith((".rt", ".rs"))}
    return found


def stands_in(piece, text):
    """Whether the lines of a piece stand in a text one after another, all indented by as much."""
    wanted, lines = piece.rstrip("\n").split("\n"), text.split("\n")
    for at in range(len(lines) - len(wanted) + 1):
        found = "\n".join(lines[at : at + len(wanted)])
        if textwrap.dedent(found) == "\n".join(wanted):
            return True
    return False


def untried(wanted, texts):
    """The pieces that stand in no program."""
    for piece in wanted:
        if not any(stands_in(piece, it) for it in texts.values()):
            yield f"{CALLING}: no program of {' and '.join(PROGRAMS)} has this piece: {piece.strip().split(chr(10))[0]} .."


# Types


def types(crates, name):
    """The public types of a crate, its own and those that it re-exports, by the paths under which they
    are named through it."""
    found = {"::".join(it) for own, it in Surface(crates[name]).public.items() if own[-1][:1].isupper()}
    for called, path in reexports(crates, name):
        crate, _, inner = path.partition("::")
        for it in types(crates, crate):
            if f"{it}::".startswith(f"{inner}::"):
                found.add(called + it[len(inner) :])
    return found


def unlinked(wanted, texts):
    """The files of which CALLING has neither a piece nor a link."""
    page = read(f"{TOP}/{CALLING}")
    for path, text in texts.items():
        is_here = f"(../{path})" in page or any(stands_in(piece, text) for piece in wanted)
        if path.startswith(f"{SHOWN}/") and not path.endswith("main.rs") and not is_here:
            yield f"{CALLING}: it has neither a piece of {path} nor a link to it"


def unshown(crates, texts):
    """The public types of `ignore` that stand in no program; one whose name another has too must stand
    there with its module."""
    words = [set(re.findall(r"\w+", it)) for it in texts.values()]
    found = sorted(types(crates, FACE))
    names = [it.split("::")[-1] for it in found]
    for it in found:
        *modules, name = it.split("::")
        needed = {*modules, name} if names.count(name) > 1 else {name}
        if it not in UNNAMED and not any(needed <= own for own in words):
            yield f"{CALLING}: no program has the type {it}"


def faults(crates):
    """What is wrong with the pages, in a line each."""
    wanted, texts = pieces(), programs()
    for page in pages():
        yield from long_cells(page)
        yield from lost_links(page)
    yield from untried(wanted, texts)
    yield from unlinked(wanted, texts)
    yield from unshown(crates, texts)
