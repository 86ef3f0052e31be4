"""What rules say of a path."""
from __future__ import annotations

from enum import Enum

from . import _library as lib


class Decision(Enum):
    """What rules say of a path."""

    NONE = lib.NONE
    IGNORE = lib.IGNORE
    WHITELIST = lib.WHITELIST


DECISIONS = {kind.value: kind for kind in Decision}
