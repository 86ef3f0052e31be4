"""The shared object, and its calls."""
from __future__ import annotations

import ctypes
import os
from ctypes import POINTER, Structure, c_bool, c_char_p, c_size_t, c_uint32, c_uint64

OK, NONE, IGNORE, WHITELIST, NOT_UTF8, NO_MEMORY = range(6)
LIMIT, REFUSED, MISUSED, OUTSIDE = 6, 7, 9, 10
NOT_CLEAN, NO_PARENT, EXISTS, MISSING, ROOM, WANTS, TOO_LARGE = range(11, 18)
#: Of `ignore_rules_same` alone.
DIFFERENT = 1
NO_FAULT = 255
NO_SIZE = 2 ** 64 - 1

#: The name of the shared object, and the variable of the environment that may give its path.
NAME = "libignore_proved.so"
VARIABLE = "IGNORE_PROVED_LIBRARY"


class Handle(Structure):
    """A handle, of any kind."""

    _fields_ = [("at", c_size_t)]


class RuleOptions(Structure):
    """`ignore_rule_options`."""

    _fields_ = [
        ("case_insensitive", c_bool),
        ("allow_unclosed_class", c_bool),
        ("git_trailing_spaces", c_bool),
    ]


class ReasonParts(Structure):
    """`ignore_reason`."""

    _fields_ = [
        ("line", c_uint64),
        ("source", c_size_t),
        ("pattern", c_size_t),
        ("glob", c_size_t),
        ("has_source", c_bool),
        ("is_only_dir", c_bool),
    ]


class Counts(Structure):
    """`ignore_counts`."""

    _fields_ = [("ignores", c_uint64), ("whitelists", c_uint64)]


class FindingParts(Structure):
    """`ignore_finding`."""

    _fields_ = [
        ("kind", c_uint32),
        ("rule", c_size_t),
        ("overruling", c_size_t),
        ("path", c_size_t),
        ("folder", c_size_t),
        ("folder_rule", c_size_t),
        ("is_dir", c_bool),
    ]


class CompareOptions(Structure):
    """`ignore_compare_options`."""

    _fields_ = [("limit", c_size_t), ("only_ignored", c_bool)]


class DifferenceParts(Structure):
    """`ignore_difference`."""

    _fields_ = [
        ("before", c_uint32),
        ("after", c_uint32),
        ("path", c_size_t),
        ("before_rule", c_size_t),
        ("after_rule", c_size_t),
        ("is_dir", c_bool),
    ]


class Found(Structure):
    """`ignore_found`."""

    _fields_ = [("should_descend", c_bool), ("is_within_depth", c_bool)]


class WhyParts(Structure):
    """`ignore_why`."""

    _fields_ = [
        ("kind", c_uint32),
        ("rank", c_uint32),
        ("line", c_uint64),
        ("size", c_uint64),
        ("limit", c_uint64),
        ("directory", c_size_t),
        ("source", c_size_t),
        ("pattern", c_size_t),
        ("glob", c_size_t),
        ("ancestor", c_size_t),
        ("has_source", c_bool),
        ("is_inside", c_bool),
    ]


class WalkEntry(Structure):
    """`ignore_walk_entry`."""

    _fields_ = [
        ("path", c_size_t),
        ("error", c_size_t),
        ("depth", c_size_t),
        ("kind", c_uint32),
        ("is_entry", c_bool),
        ("is_followed", c_bool),
    ]


class Place(Structure):
    """`ignore_place`."""

    _fields_ = [("index", c_size_t), ("serial", c_uint64)]


class ProblemParts(Structure):
    """`ignore_problem`."""

    _fields_ = [
        ("kind", c_uint32),
        ("fault", c_uint32),
        ("line", c_uint64),
        ("path", c_size_t),
        ("glob", c_size_t),
        ("text", c_size_t),
        ("has_path", c_bool),
        ("has_glob", c_bool),
    ]


TEXT = [c_char_p, c_size_t]
ONE = [POINTER(Handle)]
CALLS = {
    "version": [],
    "rules_new": [*TEXT, POINTER(RuleOptions), POINTER(Handle)],
    "rules_set_options": [*ONE, POINTER(RuleOptions)],
    "rules_add_line": [*ONE, *TEXT, *TEXT],
    "rules_add_file": [*ONE, *TEXT, *TEXT],
    "rules_problem": [*ONE, c_char_p, c_size_t, POINTER(c_size_t)],
    "rules_build": ONE,
    "rules_matched": [*ONE, *TEXT, c_bool],
    "rules_matched_path_or_any_parents": [*ONE, *TEXT, c_bool],
    "rules_matched_as_git": [*ONE, *TEXT, c_bool],
    "rules_decided": [*ONE, *TEXT, c_bool, POINTER(ReasonParts), c_char_p, c_size_t],
    "rules_decided_path_or_any_parents": [
        *ONE, *TEXT, c_bool, POINTER(ReasonParts), c_char_p, c_size_t,
    ],
    "rules_decided_as_git": [*ONE, *TEXT, c_bool, POINTER(ReasonParts), c_char_p, c_size_t],
    "rules_rule": [*ONE, c_size_t, POINTER(ReasonParts), c_char_p, c_size_t],
    "rules_counts": [*ONE, POINTER(Counts)],
    "rules_dead": [*ONE, c_size_t, *ONE],
    "rules_same": [
        *ONE, *ONE, POINTER(CompareOptions), POINTER(DifferenceParts), c_char_p, c_size_t,
    ],
    "findings_rule": [*ONE, c_size_t, POINTER(FindingParts), c_char_p, c_size_t],
    "findings_overruling": [*ONE, c_size_t, c_size_t, POINTER(c_size_t)],
    "tree_new": [*TEXT, *ONE],
    "tree_add_dir": [*ONE, *TEXT],
    "tree_add_file": [*ONE, *TEXT, *TEXT],
    "tree_add_link": [*ONE, *TEXT, *TEXT],
    "tree_add_nameless": [*ONE, *TEXT],
    "tree_set_size": [*ONE, *TEXT, c_uint64],
    "tree_set_identity": [*ONE, *TEXT, c_uint64, c_uint64],
    "tree_clear_identity": [*ONE, *TEXT],
    "tree_rewrite_file": [*ONE, *TEXT, *TEXT],
    "tree_remove": [*ONE, *TEXT],
    "tree_fault_stat": [*ONE, *TEXT, c_uint32],
    "tree_fault_list": [*ONE, *TEXT, c_uint32],
    "tree_cut_contents": [*ONE, *TEXT, c_size_t, c_uint32],
    "builder_new": [*TEXT, *ONE],
    "builder_max_depth": [*ONE, c_bool, c_size_t],
    "builder_min_depth": [*ONE, c_bool, c_size_t],
    "builder_max_filesize": [*ONE, c_bool, c_uint64],
    "builder_limit": [*ONE, c_uint64],
    "builder_overrides": [*ONE, *TEXT, c_bool],
    "builder_add_override": [*ONE, *TEXT],
    "builder_set_overrides": ONE,
    "builder_type_add": [*ONE, *TEXT, *TEXT],
    "builder_type_add_def": [*ONE, *TEXT],
    "builder_type_select": [*ONE, *TEXT],
    "builder_type_negate": [*ONE, *TEXT],
    "builder_type_clear": [*ONE, *TEXT],
    "builder_type_add_defaults": ONE,
    "builder_type_add_all_defaults": ONE,
    "builder_set_types": ONE,
    "builder_add_ignore": [*ONE, *ONE, *TEXT],
    "builder_problem": [*ONE, c_char_p, c_size_t, POINTER(c_size_t)],
    "matcher_new": [*ONE, *ONE, *ONE],
    "matcher_matched": [*ONE, *ONE, *TEXT, c_bool, POINTER(Found)],
    "matcher_explained": [
        *ONE, *ONE, *TEXT, c_bool, POINTER(Found), POINTER(WhyParts), c_char_p, c_size_t,
    ],
    "matcher_forget": [*ONE, *TEXT, POINTER(c_size_t)],
    "matcher_normalize": [*ONE, *TEXT, c_char_p, c_size_t, POINTER(c_size_t)],
    "guide_new": [*ONE, *ONE],
    "guide_root": [*ONE, *TEXT, POINTER(Place)],
    "guide_enter": [*ONE, POINTER(Place), *TEXT, *TEXT, POINTER(Place)],
    "guide_wanted": [*ONE, POINTER(c_uint32), c_char_p, c_size_t, POINTER(c_size_t)],
    "guide_give": [*ONE, c_uint32, *TEXT, c_uint32, POINTER(Place)],
    "guide_decide": [*ONE, POINTER(Place), *TEXT, c_bool, c_uint64, POINTER(Found)],
    "guide_decide_all": [
        *ONE, POINTER(Place), *TEXT, *TEXT, POINTER(c_uint64), c_size_t, c_char_p, c_size_t,
    ],
    "guide_why": [
        *ONE, POINTER(Place), *TEXT, c_bool, c_uint64, POINTER(Found), POINTER(WhyParts), c_char_p,
        c_size_t,
    ],
    "guide_leave": [*ONE, POINTER(Place)],
    "guide_problem": [*ONE, c_size_t, POINTER(ProblemParts), c_char_p, c_size_t],
    "walk_new": [*ONE, *ONE, *ONE],
    "walk_next": [*ONE, POINTER(WalkEntry), c_char_p, c_size_t],
}
#: The settings of a builder that are on or off.
SWITCHES = [
    "standard_filters", "hidden", "parents", "ignore", "git_ignore", "git_global", "git_exclude",
    "require_git", "ignore_case_insensitive", "git_trailing_spaces", "follow_links",
    "same_file_system",
]
#: What a builder is told by a text.
LABELS = [
    "add", "add_custom_ignore_filename", "add_ignore_path", "current_dir", "env_current_dir",
    "env_home", "env_xdg_config_home", "env_git_config_global", "env_git_config_system",
]
CALLS.update({f"builder_{name}": [*ONE, c_bool] for name in SWITCHES})
CALLS.update({f"builder_{name}": [*ONE, *TEXT] for name in LABELS})
FREES = [
    "rules_free", "findings_free", "tree_free", "builder_free", "matcher_free", "walk_free",
    "guide_free",
]


def places() -> list[str]:
    """Where the shared object is looked for, in order."""
    here = os.path.dirname(os.path.realpath(__file__))
    given = os.environ.get(VARIABLE)
    if given:
        return [given]
    beside = os.path.join(here, NAME)
    return [beside, os.path.join(here, "..", "..", "..", "dist", NAME), NAME]


def load() -> ctypes.CDLL:
    """Loads the shared object, and gives its calls their types.

    Raises ImportError where it isn't found, or is another one, which lacks a call.
    """
    faults = []
    for place in places():
        try:
            # (by a PyDLL the interpreter's lock is held: one call at a time has a handle)
            return typed(ctypes.PyDLL(place))
        except (OSError, AttributeError) as error:
            faults.append(str(error))
    raise ImportError(
        f"{NAME} isn't there: put it beside this package, or set {VARIABLE} to its path. "
        f"tools/release of the repository makes it, in dist/. ({'; '.join(faults)})"
    )


def typed(library: ctypes.CDLL) -> ctypes.CDLL:
    """Gives the calls of a shared object their types."""
    for name, types in CALLS.items():
        call = getattr(library, f"ignore_{name}")
        call.argtypes, call.restype = types, c_uint32
    for name in FREES:
        call = getattr(library, f"ignore_{name}")
        call.argtypes, call.restype = [Handle], None
    return library


library = load()
