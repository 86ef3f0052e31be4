"""The disk: what a guide wants to know of a path, read from it, and what is known of this process.

Paths here are those of the disk; the library is told them by `told`.
"""
from __future__ import annotations

import os
import stat
from errno import EACCES, EISDIR, ELOOP, ENOENT, ENOTDIR, EPERM
from typing import Dict, NamedTuple, Optional

from ._names import told

#: What a guide wants to know of a path.
KIND, FILE, CANONICAL = 1, 2, 3
#: The faults that stand for what the system answers.
FAULTS = {ENOENT: 0, EACCES: 1, EPERM: 1, ENOTDIR: 2, EISDIR: 3, ELOOP: 6}
OTHER = 11


class Given(NamedTuple):
    """What is told of a path: its kind (0 nothing, 1 a file, 2 a directory, 4 something else), and
    what was read, or the number of the fault by which it wasn't.
    """

    kind: int
    content: bytes = b""
    fault: Optional[int] = None


def fault_of(error: Exception) -> int:
    """The number of the fault that stands for what the system answered."""
    number = error.errno if isinstance(error, OSError) else ENOENT
    return FAULTS.get(number or 0, OTHER)


def read(wanted: int, path: str) -> Given:
    """Reads what is wanted of a path."""
    try:
        mode = os.stat(path).st_mode
        if wanted == CANONICAL:
            return Given(0, told(os.path.realpath(path)).encode("utf-8"))
    except (OSError, ValueError) as error:
        return Given(0, b"", fault_of(error))
    if not stat.S_ISREG(mode):
        kind = 2 if stat.S_ISDIR(mode) else 4
        return Given(kind, b"", FAULTS[EISDIR] if kind == 2 else OTHER)
    if wanted == KIND:
        return Given(1)
    try:
        with open(path, "rb", opener=at_once) as file:
            # (meanwhile it may have become a pipe, or a device without an end)
            if not stat.S_ISREG(os.fstat(file.fileno()).st_mode):
                return Given(4, b"", OTHER)
            return Given(1, file.read())
    except OSError as error:
        return Given(1, b"", fault_of(error))


def at_once(path: str, flags: int) -> int:
    """Opens a file; a pipe without waiting for who writes to it."""
    return os.open(path, flags | os.O_NONBLOCK)


def known_env() -> Dict[str, Optional[str]]:
    """What is known of the environment, as the library is told it."""
    known = os.environ.get
    try:
        folder: Optional[str] = os.path.realpath(os.getcwd())
    except OSError:
        folder = None
    env = {
        "current_dir": folder,
        "home": known("HOME") or None,
        "xdg_config_home": known("XDG_CONFIG_HOME") or None,
        "git_config_global": known("GIT_CONFIG_GLOBAL"),
        "git_config_system": known("GIT_CONFIG_SYSTEM"),
    }
    return {name: value and told(value) for name, value in env.items()}
