"""The figures of `docs/speed.json`: what this library takes for a thing, as a part of what another
program takes for the same, each with the command that measured it.

`tools/bench` writes them, where it is asked to keep what it measured, and `tools/pictures` draws
some.
"""
import json

from repo import TOP, read

FILE = "docs/speed.json"
# What a figure is of: one of these, the same thing and the same two programs are one figure.
KEY = "of", "what", "ours", "beside"


def figures():
    """The figures that are kept, in their order."""
    return json.loads(read(f"{TOP}/{FILE}"))


def rounded(ratio):
    """A ratio as the pages have it."""
    return round(ratio, 2 if ratio >= 0.1 else 3)


def keep(found):
    """Keeps these figures, each in the place of an earlier one of the same, or after all others."""
    kept = {tuple(it[part] for part in KEY): it for it in [*figures(), *found]}
    lines = ",\n".join(json.dumps(it, ensure_ascii=False) for it in kept.values())
    with open(f"{TOP}/{FILE}", "w", encoding="utf-8") as it:
        it.write(f"[\n{lines}\n]\n")
