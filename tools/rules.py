"""How a type or a relation by its rules, and a record by its fields, stand on the page of the headline:
the variables of the rules once, above them; and names of one type on one line.
"""
import re

from clauses import GROUP, filled
from equations import arrows

# What has rules, and these.
RULED = re.compile(r"^( *)data .* where(?:\n\1  .*)*", re.M)
BINDER = re.compile(rf"(?:{GROUP.pattern}\s*)+")
# A name with its type on a line of its own, or several names.
NAMED = re.compile(r"( +)(\w[\w' -]*) : (.*)")


def in_short(text):
    """A definition, with what its rules or fields repeat said once; the type of a record, and of a type
    by rules, isn't said."""
    text = RULED.sub(lambda it: of_rules(it[0], f"{it[1]}  "), text)
    return joined(re.sub(r" : Type where$", " where", text, flags=re.M))


def of_rules(text, indent):
    """What has these rules, with the variables that several of them bind above all of them."""
    rule = re.compile(rf"^{indent}([\w'-]+) : (.*(?:\n{indent} .*)*)", re.M)
    given = [it[2] for it in rule.finditer(text)]
    bound = [variables(it) for it in given]
    pairs = list(dict.fromkeys(pair for pairs in bound for pair in pairs))
    types = dict(pairs)
    if sum(map(bool, bound)) < 2 or len(types) < len(pairs) or any(is_misread(it, types) for it in given):
        return text
    groups = {type_: [name for name in types if types[name] == type_] for type_ in types.values()}
    said = [f"({' '.join(names)} : {type_})" for type_, names in groups.items()]
    head, _, rules = text.partition("\n")
    rules = rule.sub(lambda it: filled(without_variables(it[1], it[2]), indent), rules)
    return "\n".join([head, filled(["for each", *said[:-1], f"{said[-1]}:"], indent), rules])


def variables(type_):
    """The variables that a rule of this type binds first, each with its type."""
    first = arrows(" ".join(type_.split()))[0]
    groups = GROUP.findall(first) if BINDER.fullmatch(first) else []
    return [(name, it) for names, it in groups for name in names.split()]


def is_misread(type_, names):
    """Whether a rule of this type names another thing that is called like one of these variables."""
    bound = {name for its, _ in GROUP.findall(type_) for name in its.split()}
    return bool({*re.findall(r"(?<![\w.])[\w']+", type_)} & {*names} - bound)


def without_variables(name, type_):
    """A rule without the variables that it binds first: its name with what comes first in its type, and
    what comes after each arrow."""
    first, *others = arrows(" ".join(type_.split()))[bool(variables(type_)) :]
    return [f"{name} : {first}", *(f"→ {it}" for it in others)]


def joined(text):
    """A definition, in which names of one type that stand below one another are on one line."""
    lines = []
    for line in text.split("\n"):
        before, found = NAMED.fullmatch(lines[-1]) if lines else None, NAMED.fullmatch(line)
        if before and found and before[1] == found[1] and before[3] == found[3]:
            lines[-1] = f"{before[1]}{before[2]} {found[2]} : {found[3]}"
        else:
            lines.append(line)
    return "\n".join(lines)
