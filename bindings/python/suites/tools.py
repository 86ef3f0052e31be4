#!/usr/bin/env python3
"""Runs black, yamllint, sqlfluff and hatchling in a project with files that they are to leave out,
once with the package `pathspec` and once with `ignore_proved.pathspec` in its place, and compares
what they write. Where they differ about a file, git is asked whether it is ignored. Wants git, and
these tools in this Python; one that it lacks is said. The status is 0 where all that are there
write the same, or as git says.
usage: tools.py
"""
from __future__ import annotations

import importlib.util
import os
import subprocess
import sys
import tempfile
import zipfile
from typing import Dict, List

HERE = os.path.dirname(os.path.dirname(os.path.realpath(__file__)))
IGNORED = "build/\n*.gen.*\n!keep.gen.*\n/node/**\n!/node/a.*\n[a-c]x/\nd/**/e/\n"
SETTINGS = {
    ".gitignore": IGNORED,
    "lib/.gitignore": "!*.gen.*\nsub/\n",
    ".sqlfluffignore": IGNORED,
    ".yamllint": "extends: default\nignore: |\n" + "".join(f"  {it}\n" for it in IGNORED.split()),
    "pyproject.toml": """\
[build-system]
requires = ["hatchling"]
build-backend = "hatchling.build"
[project]
name = "tried"
version = "1"
[tool.hatch.build.targets.wheel]
include = ["*.py", "/lib/**"]
exclude = ["x?.py", "/lib/sub/**/*.sql"]
""",
}
FOLDERS = ["", "build", "node", "node/sub", "ax", "lib", "lib/sub/f", "d/e/f", "d/x/y/e", "keep/d"]
NAMES = ["a", "b.gen", "keep.gen", "x1"]
TEXTS = {"py": "x = {  'a':1 }\n", "sql": "SELECT a from b\n", "yaml": "a:  1\n"}
COMMANDS = {
    "black": ["--check", "-v", "."],
    "yamllint": ["-f", "parsable", "."],
    "sqlfluff": ["lint", "--dialect", "ansi", "."],
    "hatchling": ["build", "-t", "wheel"],
}


def lay_out(top: str) -> None:
    """Makes the project."""
    files: Dict[str, str] = {
        f"{folder}/{name}.{end}": text
        for folder in FOLDERS for name in NAMES for end, text in TEXTS.items()
    }
    for path, text in {**files, **SETTINGS}.items():
        whole = f"{top}/{path}"
        os.makedirs(os.path.dirname(whole), exist_ok=True)
        with open(whole, "w", encoding="utf-8") as file:
            file.write(text)
    subprocess.run(["git", "init", "-q", top], check=True)


def is_ignored(top: str, path: str) -> bool:
    """Whether git ignores a file of the project."""
    words = ["git", "-C", top, "check-ignore", "-q", "--no-index", path]
    return subprocess.run(words, check=False).returncode == 0


def written(tool: str, words: List[str], top: str) -> List[str]:
    """What a tool writes, line by line, sorted, and the names in the wheel that it makes."""
    env = {**os.environ, "PYTHONPATH": HERE, "LC_ALL": "C.UTF-8", "SOURCE_DATE_EPOCH": "1600000000"}
    command = [sys.executable, "-m", *words, *COMMANDS[tool]]
    ran = subprocess.run(command, cwd=top, env=env, stdout=subprocess.PIPE,
                         stderr=subprocess.STDOUT, text=True, check=False)
    lines = [f"status {ran.returncode}", *ran.stdout.splitlines()]
    for at, _, names in os.walk(f"{top}/dist"):
        for name in names:
            with zipfile.ZipFile(f"{at}/{name}") as wheel:
                lines += wheel.namelist()
            os.remove(f"{at}/{name}")
    return sorted(lines)


def main() -> int:
    wrong = 0
    for tool in COMMANDS:
        if importlib.util.find_spec(tool) is None:
            print(f"{tool}: not there")
            continue
        with tempfile.TemporaryDirectory() as top:
            lay_out(top)
            there = written(tool, [tool], top)
            here = written(tool, ["ignore_proved.pathspec", tool], top)
            differing = sorted(set(here) ^ set(there))
            as_git = [it for it in differing if (it not in here) == is_ignored(top, it)]
        said = f"{len(differing)} differ, git is with {len(as_git)} here: {differing[:1]}"
        print(f"{tool}: {len(here)} lines, {said if differing else 'the same'}")
        wrong += len(differing) - len(as_git)
    return int(wrong > 0)


if __name__ == "__main__":
    sys.exit(main())
