#!/usr/bin/env python3
"""Asks the stored vectors on rules, globs, file types, single paths and walks through the package:
`vectors.py FILE..`, by default those of the crates `replay` and `replay_walks`. Of an answer it
compares what the package gives: the kind, the line and the glob of the rule that decided, the
counts, and the texts of errors; what becomes of each path; the items of a walk. A line that it
can't ask, as one of another kind, is left out, and counted. The last line is `N agree, M differ, K
left out`.
"""
from __future__ import annotations

import collections
import json
import pathlib
import sys
from typing import Any, Callable, Counter, Dict, Iterator, List, Optional, Sequence, Tuple, Union

sys.path.insert(0, str(pathlib.Path(__file__).resolve().parent))
from ignore_proved import (
    Answer, Builder, InvalidRuleError, LimitError, OutsideError, Rules, Tree, TreeMatcher, TreeWalk,
)

OPTIONS = {"ci": "case_insensitive", "auc": "allow_unclosed_class", "gts": "git_trailing_spaces"}


#: A part of a vector.
Json = Any
#: What each field should be, and what it is.
Pairs = Iterator[Tuple[Json, Json]]


class LeftOut(Exception):
    """The package can't be asked this."""


def built(rules: Rules, ops: Json) -> List[Json]:
    """The rules after operations, and what was refused."""
    refused, options = [], {}
    for number, (what, value) in enumerate(ops):
        if what == "line":
            try:
                rules.add_line(value)
            except InvalidRuleError as error:
                refused.append([number, str(error)])
        elif what in OPTIONS:
            options[OPTIONS[what]] = value
            rules.set_options(**options)
        else:
            raise LeftOut(what)
    return refused


def told(answer: Answer) -> List[str]:
    """An answer as a vector has it, without the number of its rule."""
    kind = answer.decision.name.lower()
    return [kind] if answer.reason is None else [kind, answer.reason.pattern, answer.reason.glob]


def ask_rules(given: Json, wanted: Json) -> Pairs:
    """Yields what each field should be, and what it is."""
    with Rules(given["root"]) as rules:
        refused = built(rules, given["ops"])
        if "refused" in wanted:
            yield wanted["refused"], refused
        if "answer" in wanted:
            yield wanted["answer"][:3], told(rules.match(given["path"], given["is_dir"]))
        for name in ("num_ignores", "num_whitelists"):
            if name in wanted:
                yield wanted[name], getattr(rules, name)
        if "rules" in wanted:
            yield len(wanted["rules"]), len(rules)


def ask_parents(given: Json, wanted: Json) -> Pairs:
    """The same of a path with its parents."""
    with Rules(given["root"]) as rules:
        built(rules, given["ops"])
        try:
            found = told(rules.match_path_or_any_parents(given["path"], given["is_dir"]))
            under = True
        except OutsideError:
            found, under = None, False
        yield wanted["under_root"], under
        if under and wanted.get("answer") is not None:
            yield wanted["answer"][:3], found


def ask_file(given: Json, wanted: Json) -> Pairs:
    """The same of a file's rules and errors."""
    if given.get("hex") is None or given.get("cut") is not None or "refuse" in given:
        raise LeftOut("a fault of the file system, or an allocation that fails")
    error = None
    with Rules("/r") as rules:
        built(rules, [["line", line] for line in given.get("lines", [])])
        rules.set_options(case_insensitive=given["ci"], git_trailing_spaces=given.get("gts", False))
        try:
            rules.add_file(given["path"], bytes.fromhex(given["hex"]))
        except InvalidRuleError as raised:
            error = str(raised)
        if "error" in wanted:
            yield wanted["error"] and wanted["error"]["text"], error
        if "rules" in wanted:
            yield len(wanted["rules"]), len(rules)
            yield sum(1 for rule in wanted["rules"] if rule[2]), rules.num_whitelists


def tree_of(given: Json) -> Tree:
    """The tree that calls tell."""
    tree = Tree(given["cwd"])
    tell(tree, given["calls"])
    return tree


def tell(tree: Tree, calls: Json) -> None:
    """Tells a tree by calls."""
    for name, *words in calls:
        if name == "add_file":
            tree.add_file(words[0], bytes.fromhex(words[1]))
        elif name == "set_identity":
            if words[1] is None:
                tree.clear_identity(words[0])
            else:
                tree.set_identity(words[0], *words[1])
        else:
            getattr(tree, name)(*words)


def error_in(call: Callable[[], object]) -> Optional[str]:
    """The text of what is wrong, if something is."""
    try:
        call()
    except InvalidRuleError as error:
        return str(error)
    return None


def set_overrides(builder: Builder, root: str, ops: Json) -> List[Json]:
    """Sets the globs of a command line, and returns what was refused."""
    refused = []
    builder.begin_overrides(root)
    for number, (what, value) in enumerate(ops):
        if what != "line":
            raise LeftOut(what)
        error = error_in(lambda: builder.add_override(value))
        if error is not None:
            refused.append([number, error])
    builder.set_overrides()
    return refused


def set_types(builder: Builder, ops: Json) -> Tuple[List[Json], Optional[str]]:
    """Tells file types and choices, and returns what was refused, and what building them was."""
    calls: Dict[str, Callable[..., object]] = {
        "add": builder.add_type, "add_def": builder.add_type_def, "clear": builder.clear_type,
        "select": builder.select_type, "negate": builder.negate_type,
        "defaults": builder.add_default_types, "add_defaults": builder.add_default_types,
    }
    refused = []
    for number, (what, *words) in enumerate(ops):
        if what not in calls:
            raise LeftOut(what)
        error = error_in(lambda: calls[what](*words))
        if error is not None:
            refused.append([number, error])
    return refused, error_in(builder.set_types)


def verdict_of(builder: Builder, path: str, is_dir: bool, root: str = "/r") -> str:
    """What the globs or types of a builder say of a path, where nothing else decides."""
    with Tree("/") as tree:
        folder = ""
        for name in root.strip("/").split("/") if root != "/" else ():
            folder = f"{folder}/{name}"
            tree.add_dir(folder)
        with TreeMatcher(builder, tree) as matcher:
            return matcher.match(tree, path, is_dir).decision.name.lower()


def is_plain(path: str) -> bool:
    """Whether a matcher asks its rules about a path as it stands."""
    return bool(path) and all(name not in ("", ".", "..") for name in path.split("/"))


def ask_override(given: Json, wanted: Json) -> Pairs:
    """What globs of a command line say of a path."""
    root = given["root"]
    if not is_plain(given["path"]) or not (root == "/" or root[:1] == "/" and is_plain(root[1:])):
        raise LeftOut("a path that no walk comes to, or a root that isn't in its tree")
    with Builder(root, standard_filters=False) as builder:
        yield wanted["refused"], set_overrides(builder, root, given["ops"])
        yield wanted["kind"], verdict_of(builder, given["path"], given["is_dir"], root)


def ask_types(given: Json, wanted: Json) -> Pairs:
    """What chosen file types say of paths."""
    with Builder("/r", standard_filters=False) as builder:
        refused, error = set_types(builder, given["ops"])
        yield wanted["refused"], refused
        if "build" in wanted:
            yield wanted["build"] and wanted["build"]["text"], error
        for (path, is_dir), want in zip(given["asks"], wanted.get("answers") or []):
            if is_plain(path):
                yield want[0], verdict_of(builder, path, is_dir)


def builder_of(given: Json, tree: Tree) -> Tuple[Builder, List[Optional[str]]]:
    """The builder that a vector sets, and what was reported of files added by name."""
    roots = [given["root"]] if "root" in given else given["roots"]
    if not roots:
        raise LeftOut("no root")
    if sum(1 for name, *_ in given["set"] if name == "types") > 1:
        raise LeftOut("file types that begin anew")
    builder, added = Builder(roots[0]).env(**given["env"]), []
    for root in roots[1:]:
        builder.add(root)
    for name, *words in given["set"]:
        if name == "custom":
            builder.set(custom_ignore_filenames=words)
        elif name == "current_dir":
            builder.current_dir(words[0])
        elif name == "add_ignore":
            added.append(error_in(lambda: builder.add_ignore(tree, words[0])))
        elif name == "overrides":
            set_overrides(builder, words[0], [["line", glob] for glob in words[1]])
        elif name == "types":
            set_types(builder, words[0])
        elif name in ("sort", "filter"):
            raise LeftOut(name)
        else:
            builder.set(**{name: words[0]})
    return builder, added


def ask_query(given: Json, wanted: Json) -> Pairs:
    """What becomes of paths in turn."""
    with tree_of(given) as tree:
        builder, added = builder_of(given, tree)
        if "root" not in given:
            raise LeftOut("several roots")
        yield [error and error["text"] for error in wanted["added"]], added
        with builder, TreeMatcher(builder, tree) as matcher:
            for step, want in zip(given["steps"], wanted["steps"]):
                name, *words = step
                if name in ("ask", "matched"):
                    found = matcher.match(tree, *words)
                    answer = [
                        found.decision.name.lower(), found.should_descend, found.is_within_depth,
                    ]
                    yield want["match"] if name == "ask" else want, answer
                elif name == "forget":
                    yield want, matcher.forget(words[0])
                else:
                    raise LeftOut(name)


KINDS_OF_ENTRIES = [None, "File", "Dir", "Symlink", "Other"]


def ask_walk(given: Json, wanted: Json) -> Pairs:
    """The items of a walk."""
    with tree_of(given) as tree:
        builder, added = builder_of(given, tree)
        yield [error and error["text"] for error in wanted["added"]], added
        try:
            with builder, TreeWalk(builder, tree) as items:
                found = list(items)
        except LimitError:
            raise LeftOut("a walk that its limit ends") from None
        yield len(wanted["items"]), len(found)
        for want, item in zip(wanted["items"], found):
            if "path" in want:
                yield want["path"], item.path
                yield want["depth"], item.depth
                yield want["kind"], KINDS_OF_ENTRIES[item.kind]
                error = want["load_error"]
                yield error and error["text"], item.error
            else:
                yield want["error"]["text"], item.error


KINDS = {
    "rules": ask_rules, "path_or_parents": ask_parents, "rulefile": ask_file, "query": ask_query,
    "walk": ask_walk, "override": ask_override, "types": ask_types,
}


def main(files: Sequence[Union[str, pathlib.Path]]) -> bool:
    """Asks the vectors of these files."""
    agree, differ, left = 0, 0, 0
    by_kind: Counter[str] = collections.Counter()
    for path in files:
        for line in open(path, encoding="utf-8"):
            vector = json.loads(line)
            kind = vector.get("kind") or pathlib.Path(path).stem
            try:
                if kind not in KINDS:
                    raise LeftOut(kind)
                pairs = list(KINDS[kind](vector["in"], vector["out"]))
            except LeftOut:
                left += 1
                continue
            if all(want == found for want, found in pairs):
                agree += 1
                by_kind[kind] += 1
            else:
                differ += 1
                print(f"DIFFERS {vector['id']}: {[it for it in pairs if it[0] != it[1]]}")
    print(*(f"{kind}: {count}" for kind, count in sorted(by_kind.items())), sep=", ")
    print(f"{agree} agree, {differ} differ, {left} left out")
    return differ > 0 or agree == 0


if __name__ == "__main__":
    TOP = pathlib.Path(__file__).resolve().parents[2]
    DATA = sorted([*TOP.glob("crates/replay*/data/*.jsonl"), *TOP.glob("crates/replay*/stdin")])
    sys.exit(main(sys.argv[1:] or DATA))
