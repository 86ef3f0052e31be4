"""The public calls of the crates, read off their sources as `rt fmt` lays them out.

`tools/statements` writes a page of them.
"""
import functools
import os
import re

from repo import read

# The head of a function, with the space before it and its name.
FUNCTION = re.compile(r"( *)(?:pub(?:\([^)]*\))? )?(?:const |unsafe |extern \S+ )*fn (\w+)")
MODULE = re.compile(r"(pub )?mod (\w+);")
USE = re.compile(r"pub use ([^;]+);")
TYPE = re.compile(r"pub (?:struct|enum|trait|type|union) (\w+)")
IMPL = re.compile(r"impl\b")
TRAIT = re.compile(r"pub trait (\w+)")
ANY_TRAIT = re.compile(r"(?:pub(?:\([^)]*\))? )?trait (\w+)")
# What a crate has for crates above it alone, and no caller uses.
INNER = "internal"


class Call:
    """A public call: its crate, its names, the file, its documentation, its head and its clauses."""

    def __init__(self, crate, path, name, file):
        # `path` is the name by which a check prints it, `name` the one by which it is called.
        # `face` is the one by which it is called through the crate that a caller lists.
        self.crate, self.path, self.name, self.face, self.file = crate, path, name, name, file
        self.doc, self.head, self.clauses = "", "", []
        # The type or the trait whose it is, if it is of one, and the trait that has it, by which it
        # may be called without its name.
        self.owner = self.trait = ""
        # Whether other crates can't call it.
        self.is_private = False

    def key(self):
        return f"{self.crate}::{self.path}"


# Modules and what is public


def module_file(crate, modules):
    """The file of a module of a crate, in the crate's folder."""
    if not modules:
        return crate.root()
    at = "/".join(modules)
    return next(it for it in (f"src/{at}.rt", f"src/{at}/mod.rt") if os.path.isfile(f"{crate.folder}/{it}"))


@functools.cache
def lines_of(file):
    return read(file).split("\n")


def expanded(use):
    """The paths of a `use`, with the name of each."""
    use = " ".join(use.split())
    found = re.fullmatch(r"(.*?)(?:::)?\{(.*)\}", use)
    if not found:
        path, _, name = use.partition(" as ")
        return [(path, name or path.split("::")[-1])]
    front, inner, depth, part, parts = found[1], found[2], 0, "", []
    for it in inner + ",":
        depth += {"{": 1, "}": -1}.get(it, 0)
        if it == "," and not depth:
            parts += [part.strip()] if part.strip() else []
            part = ""
        else:
            part += it
    return [(f"{front}::{path}" if front else path, name) for it in parts for path, name in expanded(it)]


class Surface:
    """What is public of a crate: for each item, by its own path, the path by which it is called;
    and the names that it hands on from crates below."""

    def __init__(self, crate):
        self.crate, self.public, self.handed = crate, {}, []
        self.visit((), ())

    def visit(self, modules, shown):
        """Notes what a module makes public, whose items are called below `shown`."""
        if modules[-1:] == (INNER,):
            return
        text = "\n".join(lines_of(f"{self.crate.folder}/{module_file(self.crate, modules)}"))
        children = {name: bool(public) for public, name in re.findall(r"^(pub )?mod (\w+);", text, re.M)}
        for it in re.findall(r"^pub (?:const |unsafe )*fn (\w+)", text, re.M) + TYPE.findall(text):
            self.note((*modules, it), (*shown, it))
        for name, public in children.items():
            if public:
                self.visit((*modules, name), (*shown, name))
        for use in re.findall(r"^pub use ([^;]+);", text, re.M):
            for path, name in expanded(use):
                self.hand_on(modules, shown, path.split("::"), name, children)

    def hand_on(self, modules, shown, path, name, children):
        """Notes an item or a module that a `use` makes public."""
        if path[0] in ("crate", "self"):
            target = tuple(path[1:]) if path[0] == "crate" else (*modules, *path[1:])
        elif path[0] in children:
            target = (*modules, *path)
        else:
            self.handed.append(("::".join((*shown, name)), "::".join(path)))
            return
        try:
            module_file(self.crate, target)
        except StopIteration:
            self.note(target, (*shown, name))
        else:
            self.visit(target, (*shown, name))

    def note(self, own, called):
        known = self.public.get(own)
        if known is None or len(called) < len(known):
            self.public[own] = called

    def types_in(self, modules):
        """The public types by their names, as a module sees them: its own type before one of the same
        name elsewhere."""
        types = {own[-1]: called for own, called in self.public.items() if own[-1][:1].isupper()}
        own = {it[-1]: called for it, called in self.public.items() if it[:-1] == modules and it[-1] in types}
        return {**types, **own}


def modules_of(crate):
    """The modules of a crate with their files, in the order in which a reader meets them."""
    found = []

    def visit(modules):
        file = module_file(crate, modules)
        found.append((modules, file))
        for line in lines_of(f"{crate.folder}/{file}"):
            it = MODULE.fullmatch(line)
            if it:
                visit((*modules, it[2]))

    visit(())
    return found


# Calls


def block_of(lines, at):
    """The head of the item that begins on a line: all up to what it opens, on one line."""
    text = ""
    for line in lines[at:]:
        text += f" {line.strip()}"
        if line.endswith("{") or line.endswith("}") or line.endswith(";"):
            break
    return text.strip()


def without_generics(text):
    """A type's name without what stands in its brackets."""
    depth, kept = 0, ""
    for number, it in enumerate(text):
        if it == ">" and text[number - 1 : number] != "-":
            depth -= 1
        elif it == "<":
            depth += 1
        elif not depth:
            kept += it
    return kept.strip()


def impl_of(head):
    """The trait of an `impl`, or none, and its type, both without what stands in brackets."""
    text = re.sub(r"\bfor<[^>]*>", "", head.removeprefix("impl")).strip()
    if text.startswith("<"):
        depth = 0
        for number, it in enumerate(text):
            depth += {"<": 1, ">": -1 if text[number - 1] != "-" else 0}.get(it, 0)
            if not depth:
                text = text[number + 1 :].strip()
                break
    text = re.split(r"\bwhere\b|\{", text)[0]
    trait, found, name = text.partition(" for ")
    names = [without_generics(it).split("::")[-1].lstrip("&'") for it in ((trait, name) if found else ("", trait))]
    of = re.search(r"From<(?:\w+::)*(\w+)>", trait) if found and names[0] == "From" else None
    inner = re.search(r"From<(\w+)::(\w+)>", trait) if of else None
    suffix = (inner[1].capitalize() + inner[2]) if inner else of[1] if of else ""
    return names[0] + suffix, names[1]


def doc_above(lines, at):
    """The first sentence of the documentation above a line."""
    said = []
    while at > 0 and (lines[at - 1].strip().startswith(("///", "#[")) or (said and lines[at - 1].strip().startswith("//"))):
        at -= 1
        if lines[at].strip().startswith("///"):
            said.insert(0, lines[at].strip()[3:].strip())
    text = " ".join(said[: said.index("")] if "" in said else said)
    found = re.match(r"(.+?\.)(?=\s+[A-Z`\"]|\s*$)", text)
    return (found[1] if found else text).strip()


def end_of_head(lines, at, indent, is_declared):
    """The last line of the head of a function, on which its body opens, or, of one that a trait
    declares, its `;` stands."""
    for number in range(at, len(lines)):
        line = lines[number]
        is_last = number == at or line.startswith((f"{indent})", f"{indent}where"))
        if line in (f"{indent}{{", f"{indent}{{}}") or is_last and line.endswith(("{", "{}")):
            return number
        if is_declared and line.endswith(";"):
            return number
    return at


def call_at(lines, at, indent, is_declared):
    """The head and the clauses of the function whose head begins on a line."""
    last = end_of_head(lines, at, indent, is_declared)
    part = [it[len(indent) :] for it in lines[at : last + 1]]
    part[-1] = part[-1].removesuffix("{}").removesuffix("{").removesuffix(";").rstrip()
    part = [it for it in part if it and not it.strip().startswith("//")]
    is_clause = re.compile(r"\s+(requires|ensures)\b").match
    first = next((it for it, line in enumerate(part) if is_clause(line)), len(part))
    return "\n".join(part[:first]), part[first:]


def members_of(lines, at):
    """The ghost members of the trait or of the `impl` that begins on a line, which say what its
    functions promise."""
    found = []
    for line in lines[at + 1 :]:
        if line and not line[0].isspace():
            break
        if re.match(r"    ghost (?!use\b)", line):
            found.append(line[4:])
        elif found and line.startswith("        ") and not found[-1].endswith(";"):
            found.append(line[4:])
    return found


def calls_of(crate, inside=False):
    """The public calls of a crate, from inside of it the private ones too, and what it hands on from
    crates below."""
    surface, found = Surface(crate), []
    for modules, file in modules_of(crate):
        types = surface.types_in(modules)
        lines = lines_of(f"{crate.folder}/{file}")
        of = trait = ""
        is_declared = False
        for at, line in enumerate(lines):
            if line and not line[0].isspace() and line[0] not in "/#})":
                of = trait = ""
                is_declared = bool((ANY_TRAIT if inside else TRAIT).match(line))
                if IMPL.match(line):
                    trait, of = impl_of(block_of(lines, at))
                elif is_declared:
                    of = ANY_TRAIT.match(line)[1]
                is_known = of in types or inside and of
                members = members_of(lines, at) if is_known and (trait or is_declared) else []
                if members:
                    name = "::".join(types.get(of, (of,))) + (f": {trait}" if trait else "")
                    call = Call(crate.name, "::".join((*modules, of + trait)), name, file)
                    call.owner, call.trait = of, trait or of
                    call.doc, call.clauses = doc_above(lines, at), members
                    call.head = block_of(lines, at).removesuffix("{").strip()
                    found.append(call)
            head = FUNCTION.match(line)
            if not head or len(head[1]) not in (0, 4) or bool(of) != bool(head[1]):
                continue
            shown = types.get(of) if of else surface.public.get((*modules, head[2]))
            is_seen = re.match(r"\s*pub (?!\()", line) or trait or is_declared
            is_private = shown is None or not is_seen
            if is_private and not inside:
                continue
            shown = shown or (of or head[2],)
            path = "::".join((*modules, *([of + trait] if of else []), head[2]))
            name = "::".join((*shown, *([head[2]] if of else [])))
            call = Call(crate.name, path, f"{name} ({trait})" if trait else name, file)
            call.owner, call.trait, call.is_private = of, of if is_declared else trait, is_private
            call.doc = doc_above(lines, at)
            call.head, call.clauses = call_at(lines, at, head[1], is_declared)
            if call.clauses or not trait:
                found.append(call)
    return found, surface.handed
