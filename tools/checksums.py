"""The checksums of what the verdicts on mutants rest on, by the source files that have them.

The verdicts on the mutants of a source file rest on that file, on the proofs of its functions, on
the lemmas that these import, and on what all of these see of their own crate and of the crates
below it: the types and traits that they name, or that such a type (in its head, or in a field or a
variant that they name) or the head of such a call names; the heads and clauses of the calls of
these, and of other calls, that they name, or that a trait has; constants that they name; and the
definitions that these clauses and the files rest on. Of its own crate a file sees what is private
too. It may name types of a crate that its own lists or imports from, and what such a crate hands on
under a name that it has; a type or a head names those of its own crate and of the crates below
that. What stands in other bodies, in private functions and fields of other crates, in calls and
types that it has no name of, in other definitions and other proofs doesn't change them, nor do
comments and layout.
"""
import functools
import hashlib
import os
import re

from definitions import WORD, Library, imports
from repo import files_of, read
from sources import calls_of, lines_of, modules_of

# A type, a trait or a constant.
ITEM = re.compile(r"(?:pub(?:\([^)]*\))? )?(?:struct|enum|trait|type|union|const|static) (?!fn\b)(\w+)")
TRAIT = re.compile(r"(?m)^(?:pub(?:\([^)]*\))? )?trait ")
# A type whose fields or variants stand each on lines of their own, and one of these.
OF_MEMBERS = re.compile(r"(?m)^(?:pub(?:\([^)]*\))? )?(?:struct|enum|union) .*\{$")
MEMBER = re.compile(r"    (?:pub(?:\([^)]*\))? )?(\w+)")
# An import of what sources declare: the words, or the name of all.
DECLARED = re.compile(r"use Rattle\.(\w+)\.specs\.declared\.([\w.]+?)(?:\.\{([^}]*)\}| as (\w+))")
# An import of a file of lemmas.
LEMMAS = re.compile(r"use Rattle\.(\w+)\.proofs\.([\w.+-]+?)(?=\.\{|\s|;|$)")

# What a line of a source or of a definition means, without its comments and its layout.
LEXEME = re.compile(
    r"""(?P<kept>b?r(?P<mark>\#*)".*?"(?P=mark)|b?"(?:\\.|[^"\\])*"|b?'(?:\\.|[^'\\])')"""
    r"""|(?P<comment>//[^\n]*)|(?P<space>\s+)""",
    re.S,
)


def without_layout(path, text):
    """The text of a source or of a definition, without comments and layout."""
    if path.endswith(".rt"):
        said = LEXEME.sub(lambda it: it["kept"] or " ", text)
    elif path.endswith(".antt"):
        said = re.sub(r"(?m)(^|\s)--.*$", " ", text)
    else:
        return text.strip()
    return " ".join(said.split())


class Unit:
    """The mutants that one source file has, or several have together: its crate, these files, and
    the mutants."""

    def __init__(self, crate, files):
        self.crate, self.files, self.mutants = crate, files, []
        self.name = f"{crate.name}/{'+'.join(it.removeprefix('src/') for it in files)}"


def units_of(crate, mutants):
    """The mutants of a crate, by the files that they edit and that have what they reject."""
    found = {}
    for it in mutants:
        files = tuple(sorted({*(path for path, _, _ in it.pairs), *file_with(crate, it.rejects)}))
        found.setdefault(files, Unit(crate, files)).mutants.append(it)
    return [found[it] for it in sorted(found)]


def file_with(crate, function):
    """The file of a function, by the name that a check prints."""
    path = tuple((function or "").split("::"))
    found = [(len(it), file) for it, file in modules_of(crate) if path[: len(it)] == it]
    return [max(found)[1]] if function else []


class Checksums:
    """The checksums of mutants, in the logic of a kit, by the files as they are now."""

    def __init__(self, crates, logic):
        self.crates, self.logic = crates, logic
        self.library = Library(crates)
        self.calls = functools.cache(lambda name, inside: calls_of(crates[name], inside))
        self.types = functools.cache(lambda name, inside: types_of(crates[name], inside))
        self.aliases = functools.cache(lambda name: aliases_of(crates[name]))
        self.resting, self.paths = {}, {}
        lines_of.cache_clear()

    def of(self, unit):
        """One sum over all that the verdicts on the mutants of a unit rest on."""
        said = sorted({repr(it) for it in self.basis_of(unit)})
        return hashlib.sha256("\n".join(said).encode()).hexdigest()

    def basis_of(self, unit):
        """What the verdicts on the mutants of a unit rest on: the kit's logic, the attributes of its
        crate, the libraries that it uses, the mutants, the files, and what these see of the crate
        and of those below it."""
        crate, named = unit.crate, set()
        texts = self.texts_of(crate, unit.files)
        for place, text in sorted(texts.items()):
            said = without_layout(place[1], text)
            yield place, said
            named |= set(re.findall(r"\w+", said)) if place[1].endswith(".rt") else set()
        root = [it for it in lines_of(f"{crate.folder}/{crate.root()}") if it.startswith("#![")]
        yield self.logic, crate.name, root, sorted(named & set(crate.uses))
        for it in unit.mutants:
            yield it.name, read(it.file).strip()
        seen, ones = self.seen_by(crate, named), []
        seen.types |= {it for text in texts.values() for it in declared(text, None)} & seen.known
        grown = None
        while grown != len(seen.types):
            grown = len(seen.types)
            self.close(seen)
            ones = self.rested_on(texts.values(), seen)
            seen.types |= {it for one in ones for it in self.declared_in(one)} & seen.known
        for name in seen.below:
            yield from self.said_of(name, seen)
        for one in ones:
            yield one.place, without_layout(".antt", one.text)

    def texts_of(self, crate, files):
        """The sources, the proofs of their functions, and the files of lemmas that these import, by
        crate and path; of what a file of another crate imports none."""
        modules = {file: modules for modules, file in modules_of(crate)}
        folders = ["/".join(["proofs", *modules[it]]) for it in files if it in modules]
        left = [(crate.name, it) for it in files if os.path.isfile(f"{crate.folder}/{it}")]
        left += [(crate.name, it) for it in files_of(crate, "proofs") if it.startswith(tuple(f"{at}/" for at in folders))]
        found = {}
        while left:
            place = left.pop()
            if place in found:
                continue
            found[place] = read(f"{self.crates[place[0]].folder}/{place[1]}")
            if place[0] == crate.name:
                left += self.lemmas_of(found[place])
        return found

    def lemmas_of(self, text):
        """The files of lemmas that a text imports, by crate and path."""
        for name, path in LEMMAS.findall(text):
            file = f"proofs/{path.replace('.', '/')}.antt"
            if name in self.crates and os.path.isfile(f"{self.crates[name].folder}/{file}"):
                yield name, file

    def seen_by(self, crate, named):
        """What files of a crate that have these words name of the crate and of those below it."""
        around = [*self.crates.below(crate), crate.name]
        seen = Seen(crate.name, named, {it: self.crates.below(self.crates[it]) for it in around})
        for name in seen.below:
            seen.known |= {(name, it) for it in self.names(name, seen)}
            seen.traits |= self.traits(name, seen)
        for name in seen.below:
            if name in crate.uses or name in named or name == crate.name:
                for target, words in [(name, named), *self.handed(name, seen)]:
                    seen.see([target], words)
                    seen.functions |= {target} if words is named else set()
        return seen

    def close(self, seen):
        """Adds the types and traits that what is seen names."""
        grown = None
        while grown != len(seen.types):
            grown = len(seen.types)
            for name in seen.below:
                for _, type_name, text, file in self.types(name, seen.is_inside(name)):
                    if (name, type_name) in seen.types:
                        seen.add(name, members_named(text, seen.named), self.imported(name, file))
                for it in self.called(name, seen):
                    seen.add(name, it.head, self.imported(name, it.file))
                for own, other in self.aliases(name):
                    if seen.has(name, other):
                        seen.add(name, own, {})

    def handed(self, name, seen):
        """What a crate hands on under names that are seen: a type with its crate; of a module, and
        where it is a function, whatever is named."""
        for own, other in self.calls(name, False)[1]:
            target, last = other.split("::")[0], other.split("::")[-1]
            if is_named(own, seen.named) and target in self.crates:
                yield target, {last} if last in self.names(target, seen) else seen.named

    def names(self, name, seen):
        """The names of the types and traits of a crate, and those under which it hands on others."""
        types = {it[1] for it in self.types(name, seen.is_inside(name))}
        return types | {it for one in self.aliases(name) for it in one}

    def imported(self, name, file):
        """The words of the paths by which a file of a crate names what is in other crates, each with
        those of them that are the repository's; of words that it names by its own crate, or by no
        path, those of the crate's first file."""
        if (name, file) not in self.paths:
            modules = dict(modules_of(self.crates[name]))
            own = {"crate", "self", "super", *(it[-1] for it in modules if it)}
            text = "\n".join(lines_of(f"{self.crates[name].folder}/{file}"))
            found, inside = {}, set()
            for crate, path in re.findall(r"\b([a-z]\w*)::((?:\w+::)*(?:\w+|\{[^;]*\}))", text):
                words = re.findall(r"\w+", path)
                inside |= set(words) if crate in own else set()
                for word in words if crate not in own else ():
                    found.setdefault(word, set()).update({crate} & set(self.crates))
            if file != modules[()]:
                first = self.imported(name, modules[()])
                found = {it: ones | first.get(it, set()) for it, ones in found.items() if it not in inside}
                found = {**first, **found}
            self.paths[name, file] = found
        return self.paths[name, file]

    def traits(self, name, seen):
        """The names of the traits of a crate."""
        return {it[1] for it in self.types(name, seen.is_inside(name)) if TRAIT.search(it[2])}

    def said_of(self, name, seen):
        """What is seen of the sources of a crate: calls, and types."""
        for own, other in sorted(self.calls(name, False)[1]):
            if is_named(own, seen.named):
                yield name, own, other
        for it in sorted(self.called(name, seen), key=lambda one: one.path):
            yield name, it.path, without_layout(".rt", "\n".join([it.head, *it.clauses]))
        for modules, type_name, text, _ in self.types(name, seen.is_inside(name)):
            if (name, type_name) in seen.types:
                yield name, modules, without_layout(".rt", text)

    def called(self, name, seen):
        """The calls of a crate that one which sees this may make."""
        return [it for it in self.calls(name, seen.is_inside(name))[0] if seen.has_call(it)]

    def rested_on(self, texts, seen):
        """The definitions of these crates on which the clauses of calls and the types that are seen
        rest, or what these texts import."""
        ones = [one for name in seen.below for it in self.called(name, seen) for one in self.clauses_of(it)]
        for name, file, text in self.types_seen(seen):
            around = "\n".join(lines_of(f"{self.crates[name].folder}/{file}"))
            ones += self.library.resting_on(around, set(WORD.findall(text)), text)
        for text in texts:
            ones += self.library.resting_on(text, set(imports(self.crates, text)), text)
        found = {(it.place, tuple(it.names)): it for it in ones if it.place[0] in seen.below}
        return [found[it] for it in sorted(found)]

    def declared_in(self, one):
        """The types and constants that a definition names, each with its crate."""
        return declared("\n".join(self.library.file(one.place).lines), one.words())

    def types_seen(self, seen):
        """The types that are seen, each with its crate, its file and its text."""
        for name in seen.below:
            for _, type_name, text, file in self.types(name, seen.is_inside(name)):
                if (name, type_name) in seen.types:
                    yield name, file, text

    def clauses_of(self, call):
        """The definitions that the clauses of a call rest on."""
        if call not in self.resting:
            said = " ".join(call.clauses)
            text = read(f"{self.crates[call.crate].folder}/{call.file}")
            self.resting[call] = self.library.resting_on(text, set(WORD.findall(said)), said)
        return self.resting[call]


def is_named(path, words):
    """Whether a path may be named by these words: they have its first and its last one."""
    return {path.split("::")[0], path.split("::")[-1]} <= words


def declared(text, words):
    """The types and constants of sources that a text imports, each with its crate: those among these
    words, or all."""
    for name, path, names, whole in DECLARED.findall(text):
        imported = [it.split() for it in names.split(",") if it.strip()]
        types = [it for it in path.split(".") if it[:1].isupper() and not it.startswith("The")]
        if words is None or words & {whole, *(it[-1] for it in imported)}:
            yield from ((name, it) for it in types or [it[0] for it in imported])


def is_model(call):
    """Whether these are the ghost members by which a private form is seen as a value. (Crates above
    see the value alone.)"""
    return call.name.endswith(": Model")


class Seen:
    """What files of a crate see of it and of those below it: their own words, and types and traits,
    each as the name of its crate and its own."""

    def __init__(self, own, named, below):
        self.own, self.named, self.below = own, named, list(below)
        self.around = {name: [*others, name] for name, others in below.items()}
        self.types, self.traits, self.known, self.functions = set(), set(), set(), set()

    def is_inside(self, name):
        """Whether what is private of a crate is seen too."""
        return name == self.own

    def see(self, names, words):
        """Adds what these crates have under these words."""
        self.types |= {(it, word) for it in names for word in words} & self.known

    def add(self, name, text, imported):
        """Adds what a head or a type in a file of a crate names, of which the file imports these words
        of these crates: of them, of itself, or, where there are none, of the crates below it."""
        for word in set(re.findall(r"\b[A-Z]\w*", text)):
            own = {name} if (name, word) in self.known else set()
            others = imported.get(word, () if own else self.around[name])
            self.see({*own, *others, *(it for one in others for it in self.around[one])}, {word})

    def has(self, name, word):
        """Whether a type or trait is seen that a crate has, or, where it has none of that name, one of
        the crates below it."""
        around = [name] if (name, word) in self.known else self.around[name]
        return any((it, word) in self.types for it in around)

    def has_call(self, call):
        """Whether the crate may make a call: it names it, and the type that has it is seen; or a
        trait has it, and both are seen, or the trait is of no crate of these."""
        if is_model(call) and not self.is_inside(call.crate):
            return False
        if call.owner and not self.has(call.crate, call.owner):
            return False
        if call.trait and (self.has(call.crate, call.trait) or call.trait not in self.traits):
            return True
        if not call.owner and not self.has_module(call):
            return False
        return call.path.split("::")[-1] in self.named

    def has_module(self, call):
        """Whether a function that stands by itself can be named: of its own crate, where its module
        is, or where it is handed on."""
        *_, module, _ = ["", *call.path.split("::")]
        if self.is_inside(call.crate) and call.is_private:
            return not module or bool({module, "super"} & self.named)
        return call.crate in self.functions


def types_of(crate, inside):
    """The types, traits and constants of a crate, each with its module, its name, its text and its
    file: from outside the public ones, without private fields."""
    found = []
    for modules, file in modules_of(crate):
        lines = lines_of(f"{crate.folder}/{file}")
        for at, line in enumerate(lines):
            name = ITEM.match(line)
            if not name or not (inside or line.startswith("pub ")):
                continue
            text = [line]
            if line.endswith("{"):
                end = next(it for it in range(at, len(lines)) if lines[it] in ("}", "};"))
                is_open = inside or "enum " in line or "trait " in line
                text += [it for it in lines[at + 1 : end] if is_open or it.startswith("    pub ")]
            elif not line.endswith((";", "}")):
                end = next((it for it in range(at, len(lines)) if lines[it].endswith(";")), at)
                text += lines[at + 1 : end + 1]
            if inside:
                text = [*(it for it in lines[max(at - 3, 0) : at] if it.startswith("#[")), *text]
            found.append((modules, name[1], "\n".join(text), file))
    return found


def members_named(text, words):
    """The text of a type without the fields and variants that these words don't name: nobody takes a
    value out of these. Other items whole."""
    if not OF_MEMBERS.search(text):
        return text
    said, is_named = [], True
    for line in text.split("\n"):
        member = MEMBER.match(line)
        is_named = member[1] in words if member else is_named or not line.startswith("    ")
        said += [line] if is_named else []
    return "\n".join(said)


def aliases_of(crate):
    """The names under which a crate hands on items by a `use`: each with the other."""
    text = "\n".join("\n".join(lines_of(f"{crate.folder}/{file}")) for _, file in modules_of(crate))
    return [it for use in re.findall(r"\buse ([^;]+);", text) for it in re.findall(r"(\w+) as (\w+)", use)]
