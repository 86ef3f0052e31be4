"""Measurements of walks by the proved program `igwalk`, for `tools/bench`: what further roots below
one file of rules cost, and what a walk costs beside the kit's own listing and beside ripgrep, in time
and in system calls.
"""
import os
import re
import shutil
import statistics
import subprocess
import sys
import tempfile
import time

import figures

TOP = os.path.dirname(os.path.dirname(os.path.abspath(__file__)))
# Proved programs, as the gate or `tools/launch --prove igwalk` leaves them, or others to compare.
IGWALK = os.environ.get("IGWALK") or f"{TOP}/crates/igwalk/out/igwalk"
IG = os.environ.get("IG") or f"{TOP}/crates/ig/out/ig"
TIME = "/usr/bin/time"
ROUNDS = 9
# The system calls that are counted beside all.
CALLS = ("statx", "newfstatat", "getdents64", "openat", "read")


def wanted(*programs):
    """Ends where a program isn't there."""
    for it in programs:
        if not (os.access(it, os.X_OK) or shutil.which(it)):
            sys.exit(f"bench: there is no {it}")


def timed(words, cwd):
    """The wall seconds and the processor seconds of a program."""
    start = time.perf_counter()
    with open(os.devnull, "wb") as out:
        process = subprocess.Popen(words, cwd=cwd, stdout=out, stderr=out)
        _, status, used = os.wait4(process.pid, 0)
    process.returncode = os.waitstatus_to_exitcode(status)
    return time.perf_counter() - start, used.ru_utime + used.ru_stime


def peak(words, cwd):
    """The peak memory of a program in bytes, by a program that starts it: what this process starts has
    its peak at first."""
    with tempfile.NamedTemporaryFile("r", encoding="ascii") as said, open(os.devnull, "wb") as out:
        subprocess.run([TIME, "-f", "%M", "-o", said.name, *words], cwd=cwd, stdout=out, stderr=out)
        return int(said.read().split()[-1]) * 1024


# Roots below one file of rules


def allocations(words, cwd, folder):
    """How many allocations a program makes."""
    env = {**os.environ, "COUNT": f"{folder}/count", "LD_PRELOAD": f"{folder}/count.so"}
    with open(os.devnull, "wb") as out:
        subprocess.run(words, cwd=cwd, stdout=out, stderr=out, env=env, check=True)
    with open(f"{folder}/count", encoding="ascii") as it:
        return int(it.read())


def lay_out_roots(folder, lines, most):
    """A repository with so many lines of rules, and folders with a file each below it."""
    os.makedirs(f"{folder}/.git")
    with open(f"{folder}/.gitignore", "w", encoding="utf-8") as it:
        it.write("".join(f"name_{number}.c\n" for number in range(lines)))
    for number in range(most):
        os.mkdir(f"{folder}/r{number}")
        with open(f"{folder}/r{number}/a", "w", encoding="utf-8"):
            pass


def of_a_listed_file(folder):
    """How many allocations a file more costs in a folder that is listed."""
    counts = []
    for number in (1_000, 2_000):
        place = f"{folder}/files{number}"
        os.mkdir(place)
        for name in range(number):
            with open(f"{place}/{name:04}", "w", encoding="utf-8"):
                pass
        counts.append(allocations([IGWALK, "list", place], folder, folder))
    return (counts[1] - counts[0]) / 1_000


def roots():
    compiler = os.environ.get("CC") or "cc"
    wanted(IGWALK, compiler)
    print("igwalk list r0 r1 .., below one .gitignore\n")
    print(f"{'lines':>6} {'roots':>6} {'allocations':>12} {'a further root':>15} {'ms':>8} {'to one':>7}")
    further = {}
    with tempfile.TemporaryDirectory() as folder:
        flags = ["-O2", "-shared", "-fPIC", "-o", f"{folder}/count.so"]
        subprocess.run([compiler, *flags, f"{TOP}/tools/refuse.c", "-ldl"], check=True)
        for lines in (0, 1_000):
            place = f"{folder}/{lines}"
            lay_out_roots(place, lines, 40)
            first = time_of_one = None
            for count in (1, 10, 40):
                words = [IGWALK, "list", *(f"r{number}" for number in range(count))]
                made = allocations(words, place, folder)
                seconds = statistics.median(timed(words, place)[0] for _ in range(ROUNDS))
                first, time_of_one = first or made, time_of_one or seconds
                more = (made - first) / (count - 1) if count > 1 else 0
                further[lines] = more
                print(f"{lines:6} {count:6} {made:12} {more:15.0f} {seconds * 1000:8.2f} {seconds / time_of_one:7.2f}")
        listed = of_a_listed_file(folder)
    print(f"a listed file costs {listed:.1f} allocations")
    print(f"a further root costs {further[1_000] - further[0]:.0f} allocations more below 1,000 lines than below none")


# A walk beside the kit's own listing


def folders_of(listed, tree):
    """The folders among the paths that were listed, each as it was listed."""
    paths = listed.decode(errors="surrogateescape").splitlines()
    return [it for it in paths if os.path.isdir(f"{tree}/{it}") and not os.path.islink(f"{tree}/{it}")]


def floor(tree, bench):
    """What `igwalk list` takes beside a program that lists the same folders by the kit alone, in
    turns: medians."""
    wanted(IGWALK, TIME, bench)
    listed = subprocess.run([IGWALK, "list", "."], cwd=tree, stdout=subprocess.PIPE, stderr=subprocess.DEVNULL)
    with tempfile.NamedTemporaryFile("w", encoding="utf-8", errors="surrogateescape") as file:
        folders = folders_of(listed.stdout, tree)
        file.write("".join(f"{it}\n" for it in folders))
        file.flush()
        ways = {"igwalk list": [IGWALK, "list", "."], "floor": [bench, "floor", file.name]}
        subprocess.run(ways["floor"], cwd=tree, stdout=subprocess.DEVNULL, check=True)
        found = {name: [] for name in ways}
        for _ in range(ROUNDS):
            for name, words in ways.items():
                found[name].append(timed(words, tree))
        peaks = {name: peak(words, tree) for name, words in ways.items()}
    print(f"{tree}: {listed.stdout.count(chr(10).encode())} entries are listed, in {len(folders)} folders\n")
    print(f"{'':28} {'ms':>8} {'processor':>10} {'MB':>7} {'to floor':>9}")
    base = statistics.median(it[0] for it in found["floor"])
    for name, ones in found.items():
        wall, used = (statistics.median(it[at] for it in ones) for at in range(2))
        print(f"{name:28} {wall * 1000:8.1f} {used * 1000:10.1f} {peaks[name] / 1e6:7.1f} {wall / base:9.2f}")


# A walk beside ripgrep


def calls_of(words, cwd):
    """How many system calls of each name a program makes."""
    ran = subprocess.run(["strace", "-f", "-c", "-o", "/dev/stdout", *words], cwd=cwd, stdout=subprocess.PIPE,
                         stderr=subprocess.DEVNULL, text=True, errors="replace")
    found = re.findall(r"^\s*[\d.]+\s+[\d.]+\s+\d+\s+(\d+)\s+(?:\d+\s+)?(\w+)$", ran.stdout, re.M)
    return {name: int(count) for count, name in found if name != "total"}


# Two ways to list a tree: one by a program of this library, and the one that it is compared with. They
# go by the rules, or by none (`-I -H`, `-uu`, and `find`), and sort, or leave the order of the system.
PAIRS = [
    ("igwalk list", "rg --files -j1 --sort path"),
    ("ig ls --files", "rg --files -j1 --sort path"),
    ("ig ls --files --sort none", "rg --files -j1"),
    ("ig ls --files --sort none", "fd --type f --threads 1"),
    ("ig ls --files -I -H", "rg --files -uu -j1 --sort path"),
    ("ig ls --files -I -H --sort none", "rg --files -uu -j1"),
    ("ig ls --files -I -H --sort none", "find . -type f"),
]
# The programs of this library, and names that others have elsewhere.
PROGRAMS = {"ig": IG, "igwalk": IGWALK, "fd": "fd" if shutil.which("fd") else "fdfind"}


def words_of(way):
    """The command of a way, over the working directory."""
    name, *words = way.split()
    return [PROGRAMS.get(name, name), *words, *([] if "." in words else ["."])]


def walks(tree, name=None):
    """What the ways to list a tree take, in turns: medians, peaks and system calls; then of each pair
    the ratio of the wall times, that of the least times of the processor, which other work disturbs
    less, and that of the peaks. With a name of the tree, the first and the last are kept."""
    wanted(IGWALK, IG, TIME, "rg", "strace")
    pairs = [it for it in PAIRS if shutil.which(words_of(it[1])[0])]
    ways = {way: words_of(way) for pair in pairs for way in pair}
    found = {way: [] for way in ways}
    for _ in range(ROUNDS):
        for way, words in ways.items():
            found[way].append(timed(words, tree))
    peaks = {way: peak(words, tree) for way, words in ways.items()}
    print(f"{tree}: {listed_by(ways['igwalk list'], tree)} entries are listed, without rules "
          f"{listed_by(ways['ig ls --files -I -H'], tree)} files\n")
    names = " ".join(f"{it:>11}" for it in CALLS)
    print(f"{'':32} {'ms':>8} {'processor':>10} {'MB':>7} {names} {'all calls':>10}")
    for way, ones in found.items():
        wall, used = (statistics.median(it[at] for it in ones) for at in range(2))
        calls = calls_of(ways[way], tree)
        shown = " ".join(f"{calls.get(it, 0):11}" for it in CALLS)
        print(f"{way:32} {wall * 1000:8.1f} {used * 1000:10.1f} {peaks[way] / 1e6:7.1f} {shown} "
              f"{sum(calls.values()):10}")
    print_pairs(pairs, found, peaks, name)


def print_pairs(pairs, found, peaks, name):
    """A line for each pair, and with a name of the tree their figures, which are kept."""
    print(f"\n{'':66} {'time':>6} {'least':>6} {'memory':>6}")
    kept = []
    for own, other in pairs:
        wall = ratio(found, own, other, 0, statistics.median)
        least, memory = ratio(found, own, other, 1, min), peaks[own] / peaks[other]
        print(f"{own:32} to {other:30} {wall:6.2f} {least:6.2f} {memory:6.2f}")
        kept += [{"of": of, "what": name, "ours": own, "beside": other, "ratio": figures.rounded(it),
                  "command": "tools/bench walks TREE"} for of, it in (("time", wall), ("memory", memory))]
    if name:
        figures.keep(kept)


def ratio(found, own, other, at, one):
    """One of the times of a way, as a part of that of another way."""
    return one(it[at] for it in found[own]) / one(it[at] for it in found[other])


def listed_by(words, tree):
    """How many paths a program lists."""
    ran = subprocess.run(words, cwd=tree, stdout=subprocess.PIPE, stderr=subprocess.DEVNULL)
    return ran.stdout.count(b"\n")
