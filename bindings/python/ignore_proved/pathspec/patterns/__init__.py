"""The kinds of patterns."""
from .gitwildmatch import GitWildMatchPattern

__all__ = ["GitWildMatchPattern"]
