"""Crates that `rt ci` doesn't prove, since they say nothing of the library that a run doesn't: tests, measurements
and examples. Their sources have names that the kit doesn't read (`*.rs`), and become crates in a copy of the
repository, or in another repository that has its library.
"""
import glob
import hashlib
import os
import shutil

from repo import TOP, copy_of, own_files


def name_of(line):
    """The name of the crate that a line of `crates.txt` has."""
    return line.partition(":")[0]


def add(room, line, folder):
    """Adds a crate, by its line of `crates.txt` and the folder of its sources, to a repository."""
    crate = f"{room}/crates/{name_of(line)}"
    shutil.copytree(folder, crate, ignore=shutil.ignore_patterns("out"))
    for path in glob.glob(f"{crate}/src/**/*.rs", recursive=True):
        os.rename(path, f"{path[:-3]}.rt")
    with open(f"{room}/crates.txt", "a", encoding="utf-8") as file:
        file.write(f"{line}\n")


def copy_with(room, crates):
    """Makes a copy of the repository with these crates, lines and folders, in it."""
    copy_of(room)
    for line, folder in crates.items():
        add(room, line, folder)


def key(folder):
    """A sum of all that a crate of this folder is made of and proved by."""
    found = hashlib.sha256()
    for name in own_files():
        if name.startswith((f"{os.path.relpath(folder, TOP)}/src/", "crates/")) or name == "crates.txt":
            with open(f"{TOP}/{name}", "rb") as file:
                found.update(f"{name} {hashlib.sha256(file.read()).hexdigest()}\n".encode("utf-8"))
    return found.hexdigest()
