#!/usr/bin/env python3
"""Runs yamllint's own tests with `ignore_proved.pathspec` in the place of `pathspec`, also in the
processes that they start. SOURCE is the folder of its sources, as `apt-get source yamllint` unpacks
them; its modules (PyYAML) are on the path.
usage: yamllint.py SOURCE
"""
from __future__ import annotations

import os
import subprocess
import sys
import tempfile
from typing import List

STAND_IN = """\
import sys
del sys.modules["pathspec"]
from ignore_proved.pathspec import stand_in
stand_in()
"""


def main(words: List[str]) -> int:
    if len(words) != 1:
        print(__doc__, end="", file=sys.stderr)
        return 2
    with tempfile.TemporaryDirectory() as folder:
        with open(f"{folder}/pathspec.py", "w", encoding="utf-8") as file:
            file.write(STAND_IN)
        here = os.path.dirname(os.path.dirname(os.path.realpath(__file__)))
        path = [folder, here, *filter(None, [os.environ.get("PYTHONPATH")])]
        env = {"LC_ALL": "C.UTF-8", **os.environ, "PYTHONPATH": os.pathsep.join(path)}
        command = [sys.executable, "-m", "unittest", "discover", "-q", "-s", "tests", "-t", "."]
        return subprocess.run(command, cwd=words[0], env=env, check=False).returncode


if __name__ == "__main__":
    sys.exit(main(sys.argv[1:]))
