#!/usr/bin/env python3
"""Makes random trees: files of rules, repositories, worktrees, git's global file, links in chains
and in circles, folders and files without permission, names that aren't UTF-8, sizes. Compares what
the walks of C, Rust and Python list of each, by options at random, with what the library's own walk
lists, which is told the whole tree; or, with --ig, with what the program `ig` lists. Prints the
trees of which they differ, which it leaves, and counts them. Root's permissions are given up first.
usage: walks.py [--ig IG] [--c WALK_DISK] [--rust WALK] [--trees N] [--seed N]
"""
from __future__ import annotations

import os
import random
import shutil
import subprocess
import sys
import tempfile
from typing import Any, Dict, Iterator, List, NamedTuple, Optional, Set

sys.path.insert(0, os.path.join(os.path.dirname(os.path.realpath(__file__)), "python"))
from ignore_proved import Builder, Tree, TreeWalk, walk  # noqa: E402
from ignore_proved._names import of_disk, told  # noqa: E402

NAMES = [
    b"a", b"b", b"c", b"x.o", b"y.c", b"d", b"e.log", b".h", b"\xff", b"n\xe9.c", "\uf7ff".encode(),
]
LINES = [
    "*.o", "a", "/b", "c/", "!x.o", "d/*", "**/y.c", "e.*", "!a", "[ab]", "/a/b", "*.log", "#c", "",
    "{a,b}", "?", "*", "n?.c", "{", "!*/",
]
TARGETS = ["a", "../a", "x.o", ".mine", "nope", "../l1", "d/../b", ".", "..", "l2"]
#: Options, by the words of `ig`, and by the settings of a builder.
OPTIONS: Dict[str, Dict[str, Any]] = {
    "-H": {"hidden": False}, "--no-require-git": {"require_git": False}, "-d 2": {"max_depth": 2},
    "--ignore-name .mine": {"custom_ignore_filenames": [".mine"]},
    "--no-ignore-vcs": {"git_ignore": False, "git_exclude": False, "git_global": False},
    "--no-ignore-parent": {"parents": False}, "--max-filesize 4": {"max_filesize": 4},
    "--no-ignore-dot": {"ignore": False},
}
#: Those that only some walks have.
ODD: Dict[str, Dict[str, Any]] = {"-g !*.c": {"overrides": ["!*.c"]}, "-L": {"follow_links": True}}
NOBODY = 65534


def put(path: bytes, text: str) -> None:
    """Writes a file, where nothing is."""
    if not os.path.lexists(path):
        with open(path, "w", encoding="utf-8") as file:
            file.write(text)


class Grown:
    """A random tree: the folder of all, the root of walks, what can't be read."""

    def __init__(self, chance: random.Random, top: bytes, home: bytes) -> None:
        self.chance, self.top, self.root = chance, top, top + b"/up/r"
        self.shut: Set[bytes] = set()
        os.makedirs(self.root)
        os.makedirs(top + b"/store/info")
        put(top + b"/store/info/exclude", self.rules())
        put(top + b"/rules", chance.choice(["", "*.log\n", "e.log\n/b\n"]))
        link = home + b"/.config/git/ignore"
        if os.path.lexists(link):
            os.remove(link)
        os.symlink(top + b"/rules", link)
        folders = [top + b"/up", self.root]
        for _ in range(chance.randint(1, 9)):
            folder = chance.choice(folders) + b"/" + chance.choice(NAMES)
            if not os.path.lexists(folder):
                os.mkdir(folder)
                folders.append(folder)
        for folder in folders:
            self.fill(folder)
        # (what is in a folder first)
        for folder in reversed(folders[2:]):
            if chance.random() < 0.06:
                self.close(folder)

    def rules(self) -> str:
        """A random file of rules."""
        return "".join(f"{self.chance.choice(LINES)}\n" for _ in range(self.chance.randint(1, 4)))

    def close(self, path: bytes) -> None:
        """Takes the permissions away."""
        os.chmod(path, 0)
        self.shut.add(path)

    def fill(self, folder: bytes) -> None:
        """Fills a folder."""
        chance = self.chance
        for _ in range(chance.randint(0, 3)):
            put(folder + b"/" + chance.choice(NAMES), "x" * chance.randint(0, 9))
        if chance.random() < 0.5:
            name = folder + b"/" + chance.choice([b".gitignore", b".ignore", b".mine"])
            put(name, self.rules())
            if chance.random() < 0.1:
                self.close(name)
        for _ in range(chance.choice([0, 0, 1, 2])):
            link = folder + b"/" + chance.choice([b"l1", b"l2", b".ignore", b".gitignore"])
            if not os.path.lexists(link):
                top = os.fsdecode(self.top)
                os.symlink(chance.choice([*TARGETS, f"{top}/up", f"{top}/store"]), link)
        self.git(folder)

    def git(self, folder: bytes) -> None:
        """May make a folder a repository's, or a worktree's."""
        at, git = self.chance.random(), folder + b"/.git"
        if os.path.lexists(git):
            return
        if at < 0.15:
            os.makedirs(git + b"/info")
            put(git + b"/info/exclude", self.rules())
        elif at < 0.2:
            tree = self.top + b"/worktree%d" % self.chance.randint(0, 9)
            os.makedirs(tree + b"/info", exist_ok=True)
            put(tree + b"/commondir", self.chance.choice([".", "..", "../store", "./x"]) + "\n")
            put(tree + b"/info/exclude", self.rules())
            put(git, f"gitdir: {os.fsdecode(tree)}\n")
        elif at < 0.25:
            os.symlink(self.chance.choice([b"../store", self.top + b"/store"]), git)

    def remove(self) -> None:
        """Removes the tree."""
        for path in sorted(self.shut):
            os.chmod(path, 0o700)
        shutil.rmtree(self.top)


def ends_up(path: str) -> Iterator[str]:
    """The folders above a path, from the top down."""
    names = path.split("/")[1:-1]
    for count in range(1, len(names) + 1):
        yield "/" + "/".join(names[:count])


def tell(tree: Tree, path: str, shut: Set[bytes]) -> None:
    """Tells a tree what is at a path of the disk, and below it."""
    known = told(path)
    if os.path.islink(path):
        tree.add_link(known, told(os.readlink(path)))
        return
    is_shut = os.fsencode(path) in shut
    if is_shut:
        os.chmod(path, 0o700)
    if os.path.isdir(path):
        tree.add_dir(known)
        for name in os.listdir(path):
            tell(tree, f"{path}/{name}", shut)
            if is_shut:
                tree.fault_stat(told(f"{path}/{name}"), "PermissionDenied")
        if is_shut:
            tree.fault_list(known, "PermissionDenied")
    else:
        with open(path, "rb") as file:
            tree.add_file(known, file.read())
        if is_shut:
            tree.cut_contents(known, 0, "PermissionDenied")
    if is_shut:
        os.chmod(path, 0)


def by_library(grown: Grown, home: str, settings: Dict[str, Any]) -> Set[str]:
    """What the library's own walk lists, which is told the whole tree."""
    root, settings = os.fsdecode(grown.root), dict(settings)
    globs = settings.pop("overrides", None)
    names = settings.pop("custom_ignore_filenames", [])
    with Tree(told(root)) as tree, Builder(told(root), **settings) as builder:
        builder.set(custom_ignore_filenames=names).env(current_dir=told(root), home=told(home))
        builder.env(git_config_system="/nowhere")
        if globs:
            builder.overrides(told(root), globs)
        for folder in ends_up(os.fsdecode(grown.top)):
            tree.add_dir(folder)
        tell(tree, os.fsdecode(grown.top), grown.shut)
        tell(tree, home, grown.shut)
        found = [of_disk(it.path) for it in TreeWalk(builder, tree) if it.path is not None]
    return set(found) - {root}


def by_program(words: List[str], root: str) -> Set[str]:
    """What a program lists."""
    ran = subprocess.run([*words, root], capture_output=True, check=False, cwd=root)
    if ran.returncode < 0 or ran.returncode > 2:
        return {f"ended by {ran.returncode}: {ran.stderr[-500:]!r}"}
    return {os.fsdecode(it) for it in ran.stdout.split(b"\n")} - {"", root}


class Walks(NamedTuple):
    """What is compared."""

    ig: Optional[str]
    c: Optional[str]
    rust: Optional[str]

    def differing(self, grown: Grown, home: str, chosen: List[str]) -> List[str]:
        """The walks that list something else, and what."""
        settings = {key: it for word in chosen for key, it in {**OPTIONS, **ODD}[word].items()}
        words = [part for word in chosen for part in word.split(" ")]
        root, said = os.fsdecode(grown.root), []
        if self.ig:
            wanted = by_program([self.ig, *words], root)
        else:
            wanted = by_library(grown, home, settings)
        plain = {it for it in wanted if is_utf8(it)}
        found = {}
        if self.c:
            found["C"] = by_program([self.c, *words], root), wanted
        if self.rust and not set(chosen) & set(ODD):
            found["Rust"] = by_program([self.rust, *words], root), plain
        if "-L" not in chosen:
            found["Python"] = {it.path for it in walk(root, **settings)}, plain
        for name, (own, other) in found.items():
            if self.ig:
                # (`ig` reports what isn't UTF-8 in place of it, and tells a path as it is)
                own = {it for it in own if told(it) == it}
                other = {it for it in other if told(it) == it}
            if own != other:
                said.append(f"{name} lacks {sorted(other - own)}, and has {sorted(own - other)}")
        return said


def is_utf8(path: str) -> bool:
    """Whether the last name of a path is UTF-8."""
    try:
        os.fsencode(path).rsplit(b"/", 1)[-1].decode("utf-8")
    except UnicodeDecodeError:
        return False
    return True


def option(words: List[str], name: str) -> Optional[str]:
    """The value of an option, which is taken out of the words."""
    if name not in words:
        return None
    at = words.index(name)
    value = words[at + 1]
    del words[at:at + 2]
    return value


def main(words: List[str]) -> int:
    programs = [option(words, name) for name in ("--ig", "--c", "--rust")]
    count, seed = int(option(words, "--trees") or 300), int(option(words, "--seed") or 1)
    if words:
        print(__doc__, end="", file=sys.stderr)
        return 2
    room = os.path.realpath(tempfile.mkdtemp(prefix="walks-"))
    for at, program in enumerate(programs):
        if program:
            programs[at] = shutil.copy(program, f"{room}/program{at}")
    if os.geteuid() == 0:
        os.chown(room, NOBODY, NOBODY)
        os.setgroups([])
        os.setgid(NOBODY)
        os.setuid(NOBODY)
    home, wrong = f"{room}/home", 0
    os.makedirs(f"{home}/.config/git")
    for name in ("XDG_CONFIG_HOME", "GIT_CONFIG_GLOBAL"):
        os.environ.pop(name, None)
    os.environ.update(HOME=home, GIT_CONFIG_SYSTEM="/nowhere")
    for number in range(seed, seed + count):
        chance = random.Random(number)
        grown = Grown(chance, os.fsencode(f"{room}/{number}"), os.fsencode(home))
        chosen = [it for it in OPTIONS if chance.random() < 0.25]
        chosen += [it for it in ODD if chance.random() < 0.2]
        os.chdir(grown.root)
        said = Walks(*programs).differing(grown, home, chosen)
        os.chdir("/")
        if said:
            wrong += 1
            print(f"{os.fsdecode(grown.top)} by {' '.join(chosen)}: {'; '.join(said)}")
        else:
            grown.remove()
    print(f"of {count} trees {wrong} differ")
    if not wrong:
        shutil.rmtree(room, ignore_errors=True)  # (the room itself stays in a folder of root's alone)
    return int(wrong > 0)


if __name__ == "__main__":
    sys.exit(main(sys.argv[1:]))
