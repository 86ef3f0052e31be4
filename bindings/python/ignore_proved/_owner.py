"""Handles, each owned by one object."""
from __future__ import annotations

from ctypes import byref
from operator import index
from threading import get_ident
from types import TracebackType
from typing import Any, NoReturn, Optional, Type, TypeVar

from . import _library as lib
from ._errors import MisusedError, checked

Self = TypeVar("Self", bound="Owner")


class Owned(lib.Handle):
    """A handle that is freed where nothing has it any more: no object, and, by `byref`, no call.

    So where a signal's handler or a finaliser closes an object, a call that has begun ends first.
    That may be on any thread: no call has it then. It has its own way to the call that frees it,
    since at the end of the interpreter modules are empty.
    """

    frees: Any = None

    def __del__(self) -> None:
        if self.at:
            self.frees(self)


class Owner:
    """A handle, which is freed once: after `close` or `with`, or where the object is collected.

    An object is for the thread that made it, and it can't be copied.
    """

    _kind = ""
    _handle: Optional[Owned] = None
    _thread = 0

    def _new(self) -> Owned:
        """A handle for a call that makes one: also where that is interrupted, it is freed."""
        handle = Owned()
        handle.frees = getattr(lib.library, f"ignore_{self._kind}_free")
        return handle

    def _own(self, handle: Owned) -> None:
        """Keeps a handle that was just made."""
        self.close()
        self._thread, self._handle = get_ident(), handle

    def close(self) -> None:
        """Frees it, once no call has it. After that it isn't used."""
        if self._handle is not None:
            self._check_thread()
            self._handle = None

    def __enter__(self: Self) -> Self:
        return self

    def __exit__(
        self,
        kind: Optional[Type[BaseException]],
        error: Optional[BaseException],
        trace: Optional[TracebackType],
    ) -> None:
        self.close()

    def __reduce__(self) -> NoReturn:
        raise TypeError(f"a {type(self).__name__} can't be copied")

    def _check_thread(self) -> None:
        if self._thread != get_ident():
            raise MisusedError(f"the {self._kind} is of another thread")

    @property
    def handle(self) -> Any:
        """The handle's address, for a call, which keeps the handle until it ends."""
        handle = self._handle
        if handle is None:
            raise MisusedError(f"the {self._kind} is closed")
        if self._thread != get_ident():
            self._check_thread()
        return byref(handle)

    def _call(self, name: str, *words: object) -> None:
        checked(getattr(lib.library, f"ignore_{self._kind}_{name}")(self.handle, *words))


def handle_of(kind: Type[Owner], given: Owner) -> Any:
    """The address of the handle of an object of this kind, and of no other."""
    if not isinstance(given, kind):
        raise TypeError(f"a {kind.__name__} is wanted, and not {type(given).__name__}")
    return given.handle


def number(value: Any, size: int = 8) -> int:
    """A number of so many bytes. Raises OverflowError where it is negative or too large."""
    found = index(value)
    found.to_bytes(size, "little")
    return found
