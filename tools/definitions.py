"""The definitions in `specs/` with the comments above them, and which of them a clause rests on.

`headline.py` writes a page of them; the checksums of mutants count them.
"""
import functools
import itertools
import os
import re

from repo import read

NAMES = re.compile(r"(?:^|\s)pub (?:record |data )?(?!use\b|mod\b|record\b|data\b)([^\s:(]+)")
IMPORT = re.compile(r"use Rattle\.(\w+)\.specs\.([\w.]+?)\.\{([^}]*)\}")
WHOLE = re.compile(r"use Rattle\.(\w+)\.specs\.([\w.]+?) as (\w+)")
WORD = re.compile(r"[^\s(){}\[\],;.]+")
PATH = re.compile(r"[^\s(){}\[\],;⟦⟧<>]+")


class Definition:
    """A definition, or several that name each other: where it stands, its names, the comment above
    it, and its text."""

    def __init__(self, place, names, comment, text):
        self.place, self.names, self.comment, self.text = place, names, comment, text

    def heads(self):
        """Its names without those of the fields of a record."""
        return self.names[:1] if "pub record " in self.text.split("\n")[0] else self.names

    def words(self):
        """The words of its text that may be names of other definitions."""
        return set(WORD.findall(self.text))


class File:
    """A file of definitions: what its first comment says, what it defines, and what it imports."""

    def __init__(self, crates, place):
        self.place = place
        self.lines = read(f"{crates[place[0]].folder}/{place[1]}").split("\n")
        self.head, self.definitions = self.parts()
        self.imports = imports(crates, "\n".join(self.lines))
        self.whole = whole_imports(crates, "\n".join(self.lines))
        self.own = {name: it for it in self.definitions for name in it.names}
        self.heads = {name: it for it in self.definitions for name in it.heads()}

    def parts(self):
        """The first comment, and the definitions in their order."""
        said, item, head, found = [], [], None, []

        def end():
            nonlocal said, item
            names = [it for line in item for it in NAMES.findall(line)]
            if names:
                # (of several that name each other the comments stand inside, that of the first at once)
                inner = [it.strip()[2:].strip() for it in itertools.takewhile(lambda it: it.startswith("  --"), item[1:])]
                found.append(Definition(self.place, names, plain(said or inner), "\n".join(item)))
            said, item = [], []

        for at, line in enumerate(self.lines):
            if line.startswith("--"):
                if item:
                    end()
                said.append(line[2:].strip())
            elif line.startswith(("use ", "pub use ", "pub mod ")) or not line and not item:
                head = plain(said) if head is None else head
                said = []
            elif line and not line[0].isspace() and item and NAMES.match(line):
                end()
                item = [line]
            elif line or any(it.startswith(" ") for it in self.lines[at + 1 : at + 2]):
                head = "" if head is None else head
                item.append(line)
            elif item:
                end()
        end()
        return head or "", found


def paths_of(text):
    """The words of a text that may name definitions, in their order: of `a.b.c` both `a` and `a.b`,
    the `b` of a file that is imported as `a`; names of fields are none of them."""
    found = {}
    for it in PATH.findall(text):
        parts = it.rstrip(".").split(".")
        found |= dict.fromkeys([parts[0], ".".join(parts[:2])])
    return [it for it in found if it and not it.startswith(".")]


def plain(said):
    """A comment as one line, without a list of the characters whose numbers stand in it."""
    text = " ".join(it for it in said if it and not re.match(r"\d+ ", it)).strip()
    return re.sub(r"(?<=\.) \d+ (?:tab|`).*$", "", text)


def imports(crates, text):
    """For each name that a text imports of a file of definitions, that file and its name there."""
    found = {}
    for crate, path, names in IMPORT.findall(text):
        place = place_of(crates, crate, path)
        for it in names.split(",") if place else []:
            name, _, other = it.strip().partition(" as ")
            found[other or name] = place, name
    return found


def whole_imports(crates, text):
    """The files of definitions that a text imports whole, by the names that it gives them."""
    found = {alias: place_of(crates, crate, path) for crate, path, alias in WHOLE.findall(text)}
    return {it: place for it, place in found.items() if place}


def place_of(crates, crate, path):
    """The file of definitions of a module, as crate and path, if the crate is of the repository."""
    if crate not in crates or path.startswith("declared."):
        return None
    name = f"specs/{path.replace('.', '/')}.antt"
    return (crate, name) if os.path.isfile(f"{crates[crate].folder}/{name}") else None


class Library:
    """All files of definitions, read as they are needed."""

    def __init__(self, crates):
        self.crates = crates
        self.file = functools.cache(lambda place: File(crates, place))

    def find(self, place, name):
        """The definition of a name in a file, or where the file has it from."""
        file = self.file(place)
        if name in file.own:
            return file.own[name]
        if name in file.imports and file.imports[name][0] != place:
            return self.find(*file.imports[name])
        return None

    def head(self, place, name):
        """The definition whose own name this is, in a file or where the file has it from."""
        file = self.file(place)
        if name in file.heads or name not in file.imports:
            return file.heads.get(name)
        return self.head(*file.imports[name])

    def named_by(self, text, around, own=None):
        """The definitions that a text names, in their order: what the text around it imports, and
        what is defined in its own file, where it stands in one."""
        imported, whole, found = imports(self.crates, around), whole_imports(self.crates, around), {}
        for word in paths_of(text):
            alias, _, inner = word.partition(".")
            place = (whole[alias], inner) if alias in whole else imported.get(word)
            place = (own, word) if own and not inner and place is None else place
            found[self.head(*place) if place else None] = True
        return [it for it in found if it]

    def used_by(self, one):
        """The definitions that a definition names, in their order."""
        around = "\n".join(self.file(one.place).lines)
        return [it for it in self.named_by(one.text, around, one.place) if it is not one]

    def closure(self, first):
        """The definitions that these rest on, themselves among them."""
        found, left = {}, list(first)
        while left:
            one = left.pop()
            if one not in found:
                found[one] = True
                left += self.used_by(one)
        return list(found)

    def resting_on(self, text, words, said=""):
        """The definitions that these words, and the paths of what is said, rest on, which a text
        imports; where a word is the name of a field too, also the record that has it."""
        imported, found, begun = imports(self.crates, text), [], set()

        def visit(one):
            if one is None or id(one) in begun:
                return
            begun.add(id(one))
            for word in one.words():
                visit(self.find(one.place, word))
            for it in self.whole(one.text, self.file(one.place).whole):
                visit(it)
            found.append(one)

        for word in sorted(words):
            if word in imported:
                visit(self.find(*imported[word]))
        for it in self.whole(said, whole_imports(self.crates, text)):
            visit(it)
        return found

    def whole(self, text, imported):
        """The definitions that a text names by the names of these files."""
        for word in paths_of(text) if imported else []:
            alias, _, inner = word.partition(".")
            if inner and alias in imported:
                yield self.find(imported[alias], inner)
