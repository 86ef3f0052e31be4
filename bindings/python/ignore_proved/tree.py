"""Trees of files in memory, and what matchers and walks go by."""
from __future__ import annotations

import ctypes
from ctypes import byref, c_size_t
from typing import Any, Iterable, Optional, Tuple

from . import _library as lib
from ._errors import InvalidRuleError, checked
from ._owner import Owner, handle_of, number
from .rules import Path, encoded, several

#: The faults of a file system, by their names.
FAULTS = (
    "NotFound", "PermissionDenied", "NotADirectory", "IsADirectory", "InvalidData", "BadName",
    "LinkLimit", "NoIdentity", "NoCurrentDir", "StepLimit", "NoMetadata", "Other",
)


def text(path: Path) -> Tuple[bytes, int]:
    """A text as two arguments: its bytes, and their number."""
    given = encoded(path)
    return given, len(given)


class Tree(Owner):
    """A tree of files, as it is told. Paths are absolute and clean, and pass through no links."""

    _kind = "tree"

    def __init__(self, cwd: Path = "/") -> None:
        handle = self._new()
        checked(lib.library.ignore_tree_new(*text(cwd), byref(handle)))
        self._own(handle)

    def add_dir(self, path: Path) -> None:
        """Adds an empty directory."""
        self._call("add_dir", *text(path))

    def add_file(self, path: Path, content: bytes = b"") -> None:
        """Adds a file."""
        self._call("add_file", *text(path), *text(content))

    def add_link(self, path: Path, target: Path) -> None:
        """Adds a symbolic link, whose target needn't exist."""
        self._call("add_link", *text(path), *text(target))

    def add_nameless(self, path: Path) -> None:
        """Adds something whose name isn't UTF-8 to a directory."""
        self._call("add_nameless", *text(path))

    def set_size(self, path: Path, size: int) -> None:
        """Sets the size that is reported for a file."""
        self._call("set_size", *text(path), number(size))

    def set_identity(self, path: Path, device: int, inode: int) -> None:
        """Sets the identity that is reported for a path."""
        self._call("set_identity", *text(path), number(device), number(inode))

    def clear_identity(self, path: Path) -> None:
        """Says that the identity of a path is unknown."""
        self._call("clear_identity", *text(path))

    def rewrite_file(self, path: Path, content: bytes) -> None:
        """Writes a file anew."""
        self._call("rewrite_file", *text(path), *text(content))

    def remove(self, path: Path) -> None:
        """Removes what is at a path, with all that is below it."""
        self._call("remove", *text(path))

    def fault_stat(self, path: Path, fault: str) -> None:
        """Has the question what is at a path fail."""
        self._call("fault_stat", *text(path), FAULTS.index(fault))

    def fault_list(self, path: Path, fault: str) -> None:
        """Has the listing of a directory fail."""
        self._call("fault_list", *text(path), FAULTS.index(fault))

    def cut_contents(self, path: Path, length: int, fault: str) -> None:
        """Ends the reading of a file by a fault, after so many bytes."""
        self._call("cut_contents", *text(path), number(length), FAULTS.index(fault))


class Builder(Owner):
    """What matchers and walks go by: roots, settings, limits, and what is known of the environment.

    `set(hidden=False, max_depth=3, ..)` takes the settings under the original's names.
    """

    _kind = "builder"

    def __init__(self, root: Path, **settings: Any) -> None:
        handle = self._new()
        checked(lib.library.ignore_builder_new(*text(root), byref(handle)))
        self._own(handle)
        self.set(**settings)

    def set(self, **settings: Any) -> "Builder":
        """Sets what is given: switches by a bool, limits by a number or None, and
        `custom_ignore_filenames` by names.
        """
        for name, value in settings.items():
            if name in lib.SWITCHES:
                self._call(name, bool(value))
            elif name in ("max_depth", "min_depth", "max_filesize"):
                self._call(name, value is not None, number(value or 0))
            elif name == "limit":
                self._call(name, number(value))
            elif name == "custom_ignore_filenames":
                for custom in several(value):
                    self._call("add_custom_ignore_filename", *text(custom))
            else:
                raise TypeError(f"there is no setting {name}")
        return self

    def add(self, root: Path) -> "Builder":
        """Adds a root, after the others."""
        self._call("add", *text(root))
        return self

    def current_dir(self, folder: Path) -> "Builder":
        """Sets the directory that the global file is relative to."""
        self._call("current_dir", *text(folder))
        return self

    def env(self, **known: Optional[Path]) -> "Builder":
        """Tells what is known of the environment: `current_dir`, `home`, `xdg_config_home`,
        `git_config_global`, `git_config_system`. None is nothing.
        """
        for name, value in known.items():
            if value is not None:
                self._call(f"env_{name}", *text(value))
        return self

    def _tried(self, name: str, *words: object) -> None:
        call = getattr(lib.library, f"ignore_builder_{name}")
        code = call(self.handle, *words)
        if code == lib.REFUSED:
            raise InvalidRuleError(self._problem())
        checked(code)

    def _problem(self) -> str:
        room, whole = ctypes.create_string_buffer(1024), c_size_t()
        while True:
            self._call("problem", room, len(room), byref(whole))
            if whole.value <= len(room):
                return room.raw[: whole.value].decode("utf-8")
            room = ctypes.create_string_buffer(whole.value)

    def overrides(
        self, root: Path, globs: Iterable[str], *, case_insensitive: bool = False
    ) -> "Builder":
        """Sets the globs of a command line, relative to a directory. Raises InvalidRuleError where
        one is invalid; then nothing is set.
        """
        self.begin_overrides(root, case_insensitive=case_insensitive)
        for glob in several(globs):
            self.add_override(glob)
        return self.set_overrides()

    def begin_overrides(self, root: Path, *, case_insensitive: bool = False) -> "Builder":
        """Begins the globs of a command line anew, relative to a directory."""
        self._call("overrides", *text(root), bool(case_insensitive))
        return self

    def add_override(self, glob: str) -> "Builder":
        """Adds a glob of the command line."""
        self._tried("add_override", *text(glob))
        return self

    def set_overrides(self) -> "Builder":
        """Has the globs of the command line count from now on."""
        self._call("set_overrides")
        return self

    def add_type(self, name: str, glob: str) -> "Builder":
        """Adds a glob to a file type, which counts once it is chosen."""
        self._tried("type_add", *text(name), *text(glob))
        return self

    def add_type_def(self, definition: str) -> "Builder":
        """Adds a definition of a file type, as `html:*.html` or `web:include:html,css`."""
        self._tried("type_add_def", *text(definition))
        return self

    def add_default_types(self) -> "Builder":
        """Adds the file types that are there by default, as `rust` and `c`."""
        self._tried("type_add_defaults")
        return self

    def add_all_default_types(self) -> "Builder":
        """Adds all of ripgrep's file types: those of its whole table, of 219 rows."""
        self._tried("type_add_all_defaults")
        return self

    def clear_type(self, name: str) -> "Builder":
        """Removes a file type."""
        self._call("type_clear", *text(name))
        return self

    def choose_types(self, select: Iterable[str] = (), negate: Iterable[str] = ()) -> "Builder":
        """Chooses file types, and some to be ignored. Raises InvalidRuleError where there is none
        of a name, or one has an invalid glob; then the types that counted before count on.
        """
        for name in several(select):
            self.select_type(name)
        for name in several(negate):
            self.negate_type(name)
        return self.set_types()

    def select_type(self, name: str) -> "Builder":
        """Chooses a file type; `all` stands for those that are there."""
        self._tried("type_select", *text(name))
        return self

    def negate_type(self, name: str) -> "Builder":
        """Chooses a file type to be ignored."""
        self._tried("type_negate", *text(name))
        return self

    def set_types(self) -> "Builder":
        """Has the chosen file types count from now on."""
        self._tried("set_types")
        return self

    def add_ignore(self, tree: Tree, path: Path) -> "Builder":
        """Reads a file of rules of a tree, and adds it after the others that were added so. Raises
        InvalidRuleError where something is wrong with it; its other lines are added then.
        """
        given = text(path)
        self._tried("add_ignore", handle_of(Tree, tree), *given)
        return self

    def add_ignore_path(self, path: Path) -> "Builder":
        """Adds a file of rules by its path alone: guides read it with their first root, after those
        of `add_ignore`. Matchers and walks of a tree don't.
        """
        self._call("add_ignore_path", *text(path))
        return self
