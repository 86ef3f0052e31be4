#!/usr/bin/env python3
"""Says whether all that the library keeps is what it allocates, by the symbols of its archive: it
has no variables, of a thread or of the process, but a byte of which only the address is taken,
where no memory was had; and it calls nothing but functions of memory. So what a handle leads to is
all that calls by it go by, on each thread.
usage: state.py ARCHIVE
"""
import re
import subprocess
import sys

# What it may call: memory, and functions of memory alone.
CALLS = {
    "malloc", "realloc", "free", "memcpy", "memmove", "memset", "memcmp", "bcmp", "strlen", "abort",
}
# The byte, and the sections that are written to and aren't empty: it alone.
BYTE, SECTIONS = "nothing", [(".bss", 1)]
# Kinds of symbols that aren't written to: code, constants, absolute numbers.
CONSTANT = set("TtRrAaWwVvi")
LINE = re.compile(r"^(?:[0-9a-f]+)? *([A-Za-z?]) (\S+)$", re.M)
# Sections that may be written to when the program runs: not those that are read alone once it began.
WRITTEN = re.compile(r"^\s*\d+ (\.t?(?:data|bss)(?!\.rel\.ro)\S*)\s+([0-9a-f]+)", re.M)


def output(words):
    """What a command writes."""
    return subprocess.run(words, stdout=subprocess.PIPE, text=True, check=True).stdout


def main(words):
    if len(words) != 1:
        print(__doc__, end="", file=sys.stderr)
        return 2
    symbols = LINE.findall(output(["nm", words[0]]))
    own = {name for kind, name in symbols if kind not in "Uvw"}
    called = {name for kind, name in symbols if kind in "Uvw"} - own
    variables = sorted({name for kind, name in symbols if kind not in CONSTANT | {"U"}} - {BYTE})
    sections = WRITTEN.findall(output(["objdump", "-h", words[0]]))
    written = [(name, int(size, 16)) for name, size in sections if int(size, 16)]
    written = [] if written == SECTIONS else written
    others = sorted(called - CALLS)
    if variables or written or others or not called & {"malloc"}:
        print(f"variables {variables}, sections {written}, calls of {others}")
        return 1
    print(f"{len(own)} symbols, no variable; it calls {' '.join(sorted(called))}")
    return 0


if __name__ == "__main__":
    sys.exit(main(sys.argv[1:]))
