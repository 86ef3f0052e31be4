"""How a definition stands on the page of the headline: one with a single equation has its arguments,
each with its type, in one head.
"""
import itertools
import re
import textwrap

# A line has at most so many characters, where the sources have it so.
WIDTH = 118
# A space at which no line is broken.
SPACE = "\N{NO-BREAK SPACE}"
PLAIN = re.compile(r"[\w'-]+")


def arrows(text):
    """The parts of a type between the arrows that stand in no brackets."""
    parts, depth, at = [], 0, 0
    for it in re.finditer(r"[({]|[)}]| → ", text):
        depth += {"(": 1, "{": 1, ")": -1, "}": -1}.get(it[0], 0)
        if it[0] == " → " and not depth:
            parts.append(text[at : it.start()])
            at = it.end()
    return [*parts, text[at:]]


def in_one(text):
    """A definition by a type and one equation, with the arguments of the equation in its head; another
    one as it is."""
    lines = text.split("\n")
    name, has_type, type_ = lines[0].partition(" : ")
    if not has_type or not PLAIN.fullmatch(name) or len(lines) < 2:
        return text
    heads = [it for it in lines[1:] if re.match(rf"{re.escape(name)}(?: |$)", it)]
    head, has_body, body = "\n".join(lines[1:]).partition(" =")
    arguments = head.split()[1:]
    parts = arrows(type_)
    implicit = [it for it in parts if it.startswith("{")]
    explicit = parts[len(implicit) :]
    if (len(heads) != 1 or not has_body or "\n" in head or not all(map(PLAIN.fullmatch, arguments))
            or len(arguments) >= len(explicit) or parts[: len(implicit)] != implicit
            or any(re.match(r"\(\w[\w ]* : ", it) for it in explicit)):
        return text
    pairs = itertools.groupby(zip(arguments, explicit), lambda it: it[1])
    typed = [f"({' '.join(argument for argument, _ in ones)} : {bare(it)})" for it, ones in pairs]
    said = [name, *implicit, *typed, ":", " → ".join(explicit[len(arguments) :]), "="]
    line = " ".join([*said, *body.split()])
    if len(line) <= WIDTH and "let " not in body:
        return line
    whole = " ".join(it.replace(" ", SPACE) for it in said)
    wrapped = textwrap.wrap(whole, WIDTH, subsequent_indent="    ", break_long_words=False, break_on_hyphens=False)
    body = body if body.startswith("\n") else f"\n    {body.strip()}"
    return "\n".join(wrapped).replace(SPACE, " ") + body


def bare(type_):
    """A type without brackets around all of it."""
    inner = type_[1:-1]
    return inner if type_.startswith("(") and len(arrows(inner)) > 1 and is_balanced(inner) else type_


def is_balanced(text):
    """Whether each bracket of a text is closed in it, after it was opened."""
    depth = 0
    for it in text:
        depth += {"(": 1, ")": -1}.get(it, 0)
        if depth < 0:
            return False
    return not depth
