"""What a program that lists the crate `ignore` alone can call, and whether it can name the words of
the clauses of these calls.

A clause says something to a caller who writes contracts only where the caller can write its words
too. Words of the crates below are named through the files of definitions of `ignore`, which
re-export them (`pub use`). `tools/statements --check` counts the calls of which that holds.
"""
import os
import re

from definitions import IMPORT, WHOLE, paths_of
from repo import read
from sources import calls_of

# The crate that a caller lists.
FACE = "ignore"
CLAUSE = re.compile(r"\s*(requires|ensures)\b")


# Calls


def calls(crates):
    """The calls that `ignore` has, and those that it re-exports, without what is for dependents."""
    found = {it.key(): it for it in calls_of(crates[FACE])[0]}
    for name, path in reexports(crates, FACE):
        for call, rest in calls_at(crates, path):
            call.face = name + rest
            found[call.key()] = call
    return [it for it in found.values() if "For dependents" not in it.doc]


def reexports(crates, name):
    """What a crate re-exports of the crates of the repository: each name, and its path."""
    return [it for it in calls_of(crates[name])[1] if it[1].split("::")[0] in crates]


def calls_at(crates, path):
    """The calls of the item, or in the module, at a path, of its crate or re-exported by it; with each
    what of its name comes after the path."""
    crate, _, inner = path.partition("::")
    found = [it for it in calls_of(crates[crate])[0] if is_in(re.split(r"\W* ", it.name)[0], inner)]
    found = [(it, it.name[len(inner) :]) for it in found]
    for name, further in reexports(crates, crate):
        if is_in(name, inner):
            found += [(it, name[len(inner) :] + rest) for it, rest in calls_at(crates, further)]
    return found


def is_in(name, path):
    """Whether a path is the other one, or leads on from it."""
    return f"{name}::".startswith(f"{path}::")


# Words


class Words:
    """Where the definitions stand that words name: each by crate, path and name."""

    def __init__(self, crates):
        self.crates, self.files = crates, {}

    def exported(self, crate, path):
        """What a file of definitions re-exports, by name."""
        if (crate, path) not in self.files:
            file = f"{self.crates[crate].folder}/specs/{path.replace('.', '/')}.antt"
            lines = read(file).split("\n") if os.path.isfile(file) else []
            self.files[crate, path] = imported(it for it in lines if it.startswith("pub use "))
        return self.files[crate, path]

    def origin(self, crate, path, name):
        """Where the definition stands that a file of definitions has under a name."""
        while crate in self.crates and name in self.exported(crate, path):
            crate, path, name = self.exported(crate, path)[name]
        return crate, path, name

    def of_face(self):
        """The definitions that the files of definitions of `ignore` re-export."""
        names = sorted(os.listdir(f"{self.crates[FACE].folder}/specs"))
        files = [it.removesuffix(".antt") for it in names if it.endswith(".antt")]
        return {self.origin(FACE, it, name) for it in files for name in self.exported(FACE, it)}

    def of_call(self, call):
        """The definitions that the clauses of a call name, of the crates of the repository."""
        file = f"{self.crates[call.crate].folder}/{call.file}"
        known = imported(it.strip() for it in read(file).split("\n") if it.strip().startswith("ghost use "))
        found = set()
        for word in paths_of(" ".join(clauses_of(call))):
            name, _, inner = word.partition(".")
            if name in known:
                crate, path, own = known[name]
                found.add((crate, path, own or inner))
        return {self.origin(*it) for it in found if it[0] in self.crates and it[2]}


def imported(lines):
    """Where the names that lines import come from; of a file that is imported whole, without a name."""
    text = "\n".join(lines)
    found = {alias: (crate, path, "") for crate, path, alias in WHOLE.findall(text)}
    for crate, path, names in IMPORT.findall(text):
        found |= {it.split(" as ")[-1].strip(): (crate, path, it.split(" as ")[0].strip()) for it in names.split(",")}
    return found


def clauses_of(call):
    """The lines of the clauses of a call."""
    found, is_in_one = [], False
    for line in call.clauses:
        is_in_one = bool(CLAUSE.match(line)) or is_in_one and not line.startswith("ghost ")
        found += [line] if is_in_one else []
    return found


def unnamed(crates):
    """How many calls have clauses; and of each call of which a clause has words that can't be named
    through `ignore`, these."""
    words, found, count = Words(crates), {}, 0
    known = words.of_face()
    for call in calls(crates):
        count += bool(clauses_of(call))
        left = sorted(it for it in words.of_call(call) if it[0] != FACE and it not in known)
        found |= {call.key(): left} if left else {}
    return count, found
