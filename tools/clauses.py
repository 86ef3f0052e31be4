"""How the clauses of calls stand on the page of statements: in the page's own words, on as few lines
as they need, and with the variables that many of them have declared once.
"""
import collections
import itertools
import re

# A line of a call has at most so many characters, where the sources have it so.
WIDTH = 118
# The variables before the arrow with which a clause begins: groups of names, each with its type.
GROUP = re.compile(r"[({](\w+(?: \w+)*) : ((?:[^(){}]|\((?:[^()]|\([^()]*\))*\))+)[)}]")
BINDER = re.compile(rf"((?:requires )?(?:\w+ )?\{{ )((?:{GROUP.pattern}\s*)+)→\s*", re.S)
# What is said of a result that is an `Ok`, or an `Err`.
OF_RESULT = re.compile(r"If(Ok|Err) result \(λ (\w+)\. ")
FUNCTION = re.compile(r"(?<!result )\(λ (?:\w+ )*\w+\.\s+")
# A relation of a trait that allows every answer, unless a type says otherwise.
FREE = re.compile(r" = \{ (?:λ [_ ]+\. )?⊤ \};$")
# Where a text may be broken: where the sources break it, and before an arrow that stands in no brackets.
BREAK = re.compile(r"[()]|\n\s*| (?=→ )")
# What has a line of its own for each of its parts: names for what follows, or the fields of a record.
LISTED = re.compile(r"(?: in|[{;])\n")


def parted(lines):
    """The clauses, or the members of an `impl`, that these lines are."""
    clauses = []
    for line in lines:
        if re.match(r"    \S|ghost ", line) or not clauses:
            clauses.append("")
        clauses[-1] += f"{line}\n"
    return [it.rstrip("\n") for it in clauses]


def laid_out(clause, words):
    """A clause with the page's own words, on as few lines as it needs."""
    clause = plain(clause.replace("    ensures ", "    ", 1))
    for name, text in words.items():
        clause = re.sub(r"\s+".join(map(re.escape, text.split())), name, clause)
    return on_few_lines(of_result(clause))


def plain(text):
    """A clause, a relation or a definition without what says nothing: the level of a type, and that a
    relation allows every answer."""
    return FREE.sub(";", text).replace("Type 0", "Type")


def on_few_lines(text):
    """A text on as few lines as it needs, or as it is where it is a list."""
    indent = text[: len(text) - len(text.lstrip())]
    line = indent + " ".join(text.split())
    if len(line) <= WIDTH:
        return line
    return text if LISTED.search(text) else filled(parts_of(text.strip()), indent)


def parts_of(text):
    """The parts of a text between the places where it may be broken."""
    parts, depth, at = [], 0, 0
    for it in BREAK.finditer(text):
        depth += {"(": 1, ")": -1}.get(it[0], 0)
        if it[0].isspace() and ("\n" in it[0] or not depth):
            parts.append(text[at : it.start()])
            at = it.end()
    return [*parts, text[at:]]


def filled(parts, indent):
    """Parts of a text on as few lines as they need, the further ones indented by more."""
    lines = [f"{indent}{parts[0]}"]
    for part in parts[1:]:
        if len(lines[-1]) + 1 + len(part) <= WIDTH:
            lines[-1] += f" {part}"
        else:
            lines.append(f"{indent}    {part}")
    return "\n".join(lines)


def of_result(clause):
    """A clause that ends with what is said of an `Ok` or an `Err`, with that in short, without the
    brackets of a function that goes on to the end."""
    if OF_RESULT.search(clause):
        for found in FUNCTION.finditer(clause):
            end = closing(clause, found.end())
            if clause[end:] == " }":
                clause = f"{clause[: found.start()]}{clause[found.start() + 1 : end - 1]} }}"
                break
    for found in OF_RESULT.finditer(clause):
        end = closing(clause, found.end())
        if clause[end:] == " }":
            return f"{clause[: found.start()]}{found[1]} {found[2]}: {clause[found.end() : end - 1]} }}"
    return clause


def closing(text, at):
    """Where the bracket has been closed that was opened before a place of a text."""
    depth = 1
    while depth:
        depth += {"(": 1, ")": -1}.get(text[at], 0)
        at += 1
    return at


# Variables


def groups_of(clause):
    """What stands before the variables with which a clause begins, each variable with its type, and
    what stands after them; or none, where it begins with none."""
    found = BINDER.match(clause.strip())
    if not found:
        return None
    pairs = [(name, " ".join(type_.split())) for names, type_ in GROUP.findall(found[2]) for name in names.split()]
    return found[1], pairs, clause.strip()[found.end() :]


def variables_of(clauses):
    """The variables that a chapter declares, each with the type that most of these clauses give it:
    those that several clauses have."""
    counts = collections.Counter()
    for clause in clauses:
        found = groups_of(clause)
        counts.update(found[1] if found else [])
    declared = {}
    for (name, type_), count in counts.most_common():
        if count > 1:
            declared.setdefault(name, type_)
    return declared


def without_variables(clause, declared, head):
    """A clause without the variables that are declared, but those that name an argument in the head."""
    found = groups_of(clause)
    if not found:
        return clause
    before, pairs, rest = found
    kept = [(name, it) for name, it in pairs if declared.get(name) != it or re.search(rf"\b{name}:", head)]
    if kept == pairs:
        return clause
    indent = clause[: len(clause) - len(clause.lstrip())]
    binder = "".join(f"({' '.join(name for name, _ in ones)} : {it}) " for it, ones in itertools.groupby(kept, lambda it: it[1]))
    return on_few_lines(f"{indent}{before}{binder}{'→ ' if kept else ''}{rest}")
