"""What the package adds to the library: trees, matchers of paths on disk, walks."""
import errno
import os
import pathlib
import sys
import tempfile
import unittest
from unittest import mock

from ignore_proved import (
    Builder, Cause, Decision, Guide, InvalidRuleError, LimitError, Matcher, MisusedError, Rank,
    Tree, TreeError, TreeMatcher, TreeWalk, _names, walk,
)


def tree_of(**files):
    tree = Tree("/")
    tree.add_dir("/t")
    for name, text in files.items():
        tree.add_file(f"/t/{name}", text.encode())
    return tree


class Trees(unittest.TestCase):
    def test_a_tree_is_changed_or_says_why_not(self):
        with Tree("/w") as tree:
            tree.add_dir("/a")
            for call in (
                lambda: tree.add_dir("/a"), lambda: tree.add_dir("a"), lambda: tree.add_dir("/b/c"),
                lambda: tree.remove("/b"), lambda: tree.remove("/"),
                lambda: tree.rewrite_file("/a", b""),
            ):
                with self.assertRaises(TreeError):
                    call()
            tree.add_file("/a/f", b"x")
            tree.remove("/a")
            tree.add_file("/a", b"x")
        with self.assertRaises(MisusedError):
            tree.add_dir("/c")

    def test_a_file_written_anew_is_read_after_forget(self):
        with tree_of() as tree, Builder("/t") as builder:
            tree.add_file("/t/.ignore", b"a\n")
            with TreeMatcher(builder, tree) as matcher:
                self.assertTrue(matcher.match(tree, "a", False))
                tree.rewrite_file("/t/.ignore", b"b\n")
                self.assertTrue(matcher.match(tree, "a", False))
                self.assertEqual(matcher.forget(), 1)
                self.assertFalse(matcher.match(tree, "a", False))
                self.assertTrue(matcher.match(tree, "b", False))
                tree.remove("/t/.ignore")
                matcher.forget()
                self.assertFalse(matcher.match(tree, "b", False))

    def test_half_a_directory_is_read_by_halves(self):
        """A directory that is told by halves is read by halves, until it is forgotten; one that is
        told whole before the first question below it is read whole, whatever comes later.
        """
        with tree_of() as tree, Builder("/t") as builder:
            tree.add_dir("/t/half")
            tree.add_file("/t/half/.ignore", b"a\n")
            with TreeMatcher(builder, tree) as matcher:
                self.assertTrue(matcher.match(tree, "half/a", False))
                tree.add_file("/t/half/.rgignore", b"")
                tree.rewrite_file("/t/half/.ignore", b"a\nb\n")
                self.assertFalse(matcher.match(tree, "half/b", False))
                matcher.forget("half")
                self.assertTrue(matcher.match(tree, "half/b", False))
                tree.add_dir("/t/whole")
                tree.add_file("/t/whole/.ignore", b"!a\n")
                self.assertTrue(matcher.match(tree, "whole/a", False).is_whitelist)

    def test_a_matcher_has_one_root(self):
        with tree_of() as tree, Builder("/t").add("/t") as builder:
            with self.assertRaises(MisusedError):
                TreeMatcher(builder, tree)

    def test_a_walk_has_its_items(self):
        with tree_of(a="", b="") as tree, Builder("/t") as builder:
            tree.add_file("/t/.ignore", b"b\n{\n")
            tree.add_dir("/t/" + "d" * 2000)
            with TreeWalk(builder, tree) as found:
                items = list(found)
        self.assertEqual([it.path for it in items], ["/t", "/t/a", "/t/" + "d" * 2000])
        self.assertEqual(items[0].error, "/t/.ignore: line 2: error parsing glob '{': "
                         "unclosed alternates")
        self.assertEqual([(it.depth, it.kind) for it in items], [(0, 2), (1, 1), (1, 2)])


class Hostile(unittest.TestCase):
    def test_folders_inside_folders(self):
        depth = 1000
        with tree_of() as tree, Builder("/") as builder:
            tree.add_file("/.ignore", b"x\n")
            for level in range(depth):
                tree.add_dir("/d" * (level + 1))
            below = "d/" * depth
            with TreeMatcher(builder, tree) as matcher:
                self.assertTrue(matcher.match(tree, below + "x", False))
                self.assertTrue(matcher.match(tree, below * 5 + "x", False))
                self.assertEqual(matcher.normalize("/" + below), below[:-1])
                self.assertEqual(matcher.forget("d"), depth * 5)
            with TreeWalk(builder, tree) as found:
                self.assertEqual(max(it.depth for it in found), depth)

    def test_links_in_circles(self):
        with tree_of() as tree, Builder("/t") as builder:
            tree.add_dir("/t/d")
            for name, target in [("a", "b"), ("b", "a"), ("self", "self"), ("d/up", "..")]:
                tree.add_link(f"/t/{name}", target)
            with TreeWalk(builder, tree) as found:
                self.assertEqual([it.kind for it in found], [2, 2, 3, 3, 3, 3])
            builder.set(follow_links=True)
            with TreeWalk(builder, tree) as found:
                errors = [it.error for it in found if it.path is None]
        self.assertEqual(errors, [
            "File system loop found: /t/d/up points to an ancestor /t", "/t/a: too many links",
            "/t/b: too many links", "/t/self: too many links",
        ])


class Disk(unittest.TestCase):
    def setUp(self):
        self.room = tempfile.TemporaryDirectory()
        self.top = pathlib.Path(os.path.realpath(self.room.name))
        self.addCleanup(self.room.cleanup)

    def put(self, name, text=""):
        path = self.top / name
        path.parent.mkdir(parents=True, exist_ok=True)
        path.write_text(text)

    def paths(self, **settings):
        return sorted(os.path.relpath(it.path, self.top) for it in walk(self.top, **settings))

    def test_a_matcher_reads_what_decides(self):
        self.put(".git/info/exclude", "excluded\n")
        self.put(".gitignore", "*.o\n")
        self.put("a/.gitignore", "!keep.o\nsub/\n")
        self.put("a/sub/x")
        with Matcher(self.top) as matcher:
            self.assertTrue(matcher.is_ignored("a/b.o"))
            self.assertIs(matcher.match("a/keep.o").decision, Decision.WHITELIST)
            self.assertTrue(matcher.is_ignored("a/sub"))
            self.assertTrue(matcher.is_ignored("a/sub/x"))
            self.assertTrue(matcher.is_ignored("excluded"))
            self.assertTrue(matcher.is_ignored(".git"))
            self.assertTrue(matcher.is_ignored(self.top / "a" / ".." / "x.o"))
            self.assertTrue(matcher.match("/elsewhere").is_none)
            self.put("a/.gitignore", "")
            self.assertFalse(matcher.is_ignored("a/keep.o"))
            matcher.forget("a")
            self.assertTrue(matcher.is_ignored("a/keep.o"))
            self.assertFalse(matcher.is_ignored("a/sub"))
            (self.top / "a" / ".gitignore").unlink()
            self.put("a/.ignore", "y\n")
            matcher.forget("a")
            self.assertTrue(matcher.is_ignored("a/y"))

    def test_a_matcher_says_why(self):
        self.put(".git/info/exclude", "excluded\n")
        self.put(".gitignore", "*.o\n!keep.o\n\nsub/  \n")
        self.put("a/sub/x")
        self.put("large.bin", "12345")
        top = str(self.top)
        with Matcher(self.top, max_filesize=4) as matcher:
            why = matcher.explain("a/b.o")
            self.assertEqual(why.match, matcher.match("a/b.o"))
            self.assertEqual((why.cause, why.rank, why.line), (Cause.RULE, Rank.GITIGNORE, 1))
            self.assertEqual((why.source, why.directory), (top + "/.gitignore", top + "/"))
            self.assertEqual((why.pattern, why.glob, why.ancestor), ("*.o", None, None))
            self.assertEqual(str(why), top + "/.gitignore:1:*.o")
            why = matcher.explain("a/keep.o")
            self.assertTrue(why.match.is_whitelist)
            self.assertEqual((why.pattern, why.line), ("!keep.o", 2))
            why = matcher.explain("a/sub/x")
            self.assertEqual((why.ancestor, why.pattern, why.line), ("a/sub", "sub/", 4))
            self.assertIs(matcher.explain("excluded").rank, Rank.EXCLUDE)
            why = matcher.explain("large.bin")
            self.assertEqual((why.cause, why.size, why.limit), (Cause.LARGER, 5, 4))
            self.assertEqual(str(why), "larger than 4")
            for path, cause, text in [
                ("a.c", Cause.NO_RULE, "no rule"), (".x", Cause.HIDDEN, "hidden"),
                ("/elsewhere", Cause.NOT_ASKED, "not asked"), ("", Cause.UNRULED, "not asked"),
            ]:
                why = matcher.explain(path, is_dir=path == "")
                self.assertEqual((why.cause, str(why)), (cause, text))
                self.assertIsNone(why.pattern)
        with Matcher(self.top, overrides=["*.c"], types=["c"], min_depth=1, max_depth=2) as matcher:
            for path, text in [
                ("a.c", "override *.c"), ("a.h", "no override"), ("", "above the least depth"),
                ("a/b/c", "below the greatest depth"),
            ]:
                self.assertEqual(str(matcher.explain(path, is_dir=False)), text)
        with Matcher(self.top, types=["c"]) as matcher:
            why = matcher.explain("a.c", is_dir=False)
            self.assertEqual((str(why), why.glob), ("type c", "*.[chH]"))
            self.assertEqual(str(matcher.explain("a.rs", is_dir=False)), "no type")
        long = "x" * 3000
        with Matcher(self.top, lines=[long]) as matcher:
            why = matcher.explain(long, is_dir=False)
            self.assertEqual((why.pattern, why.rank), (long, Rank.EXPLICIT))

    def test_the_reason_of_an_odd_name(self):
        odd = os.fsencode(self.top) + b"/a\xff"
        os.makedirs(odd)
        with open(odd + b"/.ignore", "wb") as file:
            file.write(b"y\n")
        with Matcher(self.top) as matcher:
            why = matcher.explain(b"a\xff/y", is_dir=True)
            self.assertEqual(why.directory, os.fsdecode(odd) + "/")
            self.assertEqual(why.source, os.fsdecode(odd) + "/.ignore")
            self.assertEqual(matcher.explain(b"a\xff/y/z", is_dir=False).ancestor, "a\udcff/y")

    def test_a_walk_yields_what_no_rule_ignores(self):
        self.put(".git/HEAD")
        self.put(".gitignore", "*.o\n/build\n")
        self.put("a/b.o")
        self.put("a/b.c")
        self.put("build/x")
        self.put(".hidden")
        os.symlink("a", self.top / "link")
        self.assertEqual(self.paths(), ["a", "a/b.c", "link"])
        self.assertEqual(self.paths(hidden=False, max_depth=1),
                         [".git", ".gitignore", ".hidden", "a", "link"])
        self.assertEqual(self.paths(require_git=False, git_ignore=False, min_depth=2),
                         ["a/b.c", "a/b.o", "build/x"])
        self.put("a/large.c", "1234")
        self.assertEqual(self.paths(max_filesize=3), ["a", "a/b.c", "link"])

    def test_above_the_root_and_custom_names(self):
        self.put(".git/HEAD")
        self.put(".gitignore", "x\n")
        self.put("r/.mine", "y\n")
        for name in "xyz":
            self.put(f"r/{name}")
        with Matcher(self.top / "r", custom_ignore_filenames=[".mine"]) as matcher:
            self.assertEqual([matcher.is_ignored(name) for name in "xyz"], [True, True, False])
        with Matcher(self.top / "r", parents=False) as matcher:
            self.assertFalse(matcher.is_ignored("x"))

    def test_git_by_a_link_and_the_global_file(self):
        """The configuration of a home folder that is a link, and links on the way to paths."""
        self.put("real/.gitconfig", "[core]\n\texcludesFile = ~/named\n")
        self.put("real/named", "global\n")
        os.symlink("real", self.top / "home")
        self.put("r/.git/HEAD")
        self.put("r/d/.gitignore", "x\n")
        os.symlink("d", self.top / "r" / "l")
        saved = dict(os.environ)
        self.addCleanup(os.environ.update, saved)
        os.environ["HOME"] = str(self.top / "home")
        os.environ.pop("XDG_CONFIG_HOME", None)
        with Matcher(self.top / "r") as matcher:
            self.assertTrue(matcher.is_ignored("global"))
            self.assertTrue(matcher.is_ignored("l/x"))
            self.assertFalse(matcher.is_ignored("l/y"))

    def test_links_in_circles(self):
        self.put("d/.ignore", "x\n")
        for name, target in [("a", "b"), ("b", "a"), ("self", "self"), ("d/up", "..")]:
            os.symlink(target, self.top / name)
        self.assertEqual(self.paths(), ["a", "b", "d", "d/up", "self"])
        with Matcher(self.top) as matcher:
            for path in ("a/x", "self/self/x", "d/up/y", "d/up/d/up/y", "d/" * 300 + "y"):
                self.assertFalse(matcher.is_ignored(path))
            self.assertTrue(matcher.is_ignored("d/up/x"))

    def link(self, name, target):
        path = self.top / name
        path.parent.mkdir(parents=True, exist_ok=True)
        path.symlink_to(target)

    def test_rules_through_links(self):
        """A file of rules behind two links or through a linked folder; a `.git` that is a link."""
        self.put("n2/ignore", "*.log\n")
        self.link("n1/ignore", self.top / "n2" / "ignore")
        self.link("h/.config/git/ignore", self.top / "n1" / "ignore")
        self.put("real/rules", "*.a\n")
        self.link("w/d", "../real")
        self.link("w/.gitignore", "d/rules")
        self.put("store/info/exclude", "*.b\n")
        self.link("between", "store")
        self.link("w/.git", "../between")
        self.link("w/sub/.ignore", "../one")
        self.link("w/one", "sub/../two")
        self.put("w/two", "*.c\n")
        for name in ("x.log", "x.a", "x.b", "sub/x.c", "sub/y"):
            self.put(f"w/{name}")
        os.environ.pop("XDG_CONFIG_HOME", None)
        with mock.patch.dict(os.environ, HOME=str(self.top / "h")):
            found = sorted(os.path.relpath(it.path, self.top / "w") for it in walk(self.top / "w"))
            self.assertEqual(found, ["d", "one", "sub", "sub/y", "two"])
            with Matcher(self.top / "w") as matcher:
                for name in ("x.log", "x.a", "x.b", "sub/x.c"):
                    self.assertTrue(matcher.is_ignored(name), name)
                self.put("n2/ignore", "")
                self.link("n3", "n2/ignore")
                (self.top / "w" / "two").unlink()
                self.link("w/two", "../n3")
                matcher.forget("sub")
                self.assertFalse(matcher.is_ignored("sub/x.c"))

    def test_names_that_are_not_utf8(self):
        """They are reported, and what is in them is asked and yielded; one to one."""
        odd = os.fsencode(self.top) + b"/a\xff"
        os.makedirs(odd + b"/in\xc3\xa9\xfe")
        for name in (b"/x.o", b"/y", b"/in\xc3\xa9\xfe/z", b"/.ignore"):
            with open(odd + name, "wb") as file:
                file.write(b"in*?\n" if name == b"/.ignore" else b"")
        open(os.fsencode(self.top) + b"/b\xfe.o", "w").close()
        self.put("z")
        self.put(".ignore", "*.o\n")
        errors, found = [], []
        found = [it.path for it in walk(self.top, sort=True, onerror=errors.append)]
        top = str(self.top)
        self.assertEqual(found, [top + "/a\udcff/y", top + "/z"])
        self.assertEqual([(it.errno, it.filename) for it in errors],
                         [(errno.EILSEQ, os.fsdecode(odd))])
        self.assertEqual([it.name for it in walk(self.top)].count("y"), 1)
        self.assertEqual([it.name for it in walk(odd)], ["y"])
        with Matcher(self.top) as matcher:
            self.assertTrue(matcher.is_ignored(b"b\xfe.o"))
            self.assertTrue(matcher.is_ignored(odd + b"/in\xc3\xa9\xfe/z"))
            self.assertFalse(matcher.is_ignored(b"a\xff/y"))
            self.assertEqual(matcher.forget(b"a\xff"), 2)
        texts = [b"a", b"\xff", "\uf7ff".encode(), b"\xef\x9f\xbf", b"\xef\x9f", b"\xc3\xc3\xa9",
                 "\ue000\uf77f\uf800\u00e9".encode(), b"\xed\xa0\x80/\xef\x9e\x80\x80"]
        for text in texts:
            known = _names.told(os.fsdecode(text))
            self.assertEqual(os.fsencode(_names.of_disk(known)), text)
            known.encode("utf-8")
        self.assertEqual(_names.told("\uf7ff"), "\uf7ef\uf79f\uf7bf")
        self.assertEqual(_names.told("\udcffa\u00e9"), "\uf7ffa\u00e9")

    def test_a_root_that_cannot_be_listed(self):
        self.put("file")
        for name, error in [("none", FileNotFoundError), ("file", NotADirectoryError)]:
            with self.assertRaises(error):
                walk(self.top / name)

    def test_sizes_are_those_of_links_too(self):
        for name in ("a" * 9, "b" * 3):
            self.link(name + ".l", name)
            self.put(name, name)
        self.put("d" * 9 + "/x")
        self.assertEqual(self.paths(max_filesize=5), ["bbb", "bbb.l", "d" * 9, "d" * 9 + "/x"])
        with Matcher(self.top, max_filesize=5) as matcher:
            self.assertTrue(matcher.is_ignored("a" * 9 + ".l"))
            self.assertFalse(matcher.is_ignored("b" * 3 + ".l/x"))

    def test_another_file_system_is_not_listed(self):
        for name in ("a/x", "b/y"):
            self.put(name)
        plain = os.lstat

        def lstat(path, **how):
            found = plain(path, **how)
            if os.fspath(path) != str(self.top / "b"):
                return found
            return os.stat_result([*found[:2], found.st_dev + 1, *found[3:]])

        self.assertEqual(self.paths(same_file_system=True), ["a", "a/x", "b", "b/y"])
        with mock.patch("os.lstat", lstat):
            self.assertEqual(self.paths(same_file_system=True), ["a", "a/x", "b"])
            self.assertEqual(self.paths(same_file_system=False), ["a", "a/x", "b", "b/y"])

    def test_a_limit_is_of_the_steps_of_the_library(self):
        for name in ("a/x", "b", ".h/x"):
            self.put(name)
        with Tree("/") as tree:
            for name in ("/r", "/r/a", "/r/.h"):
                tree.add_dir(name)
            for name in ("/r/a/x", "/r/b", "/r/.h/x"):
                tree.add_file(name)
            for limit in range(10):
                try:
                    with Builder("/r", limit=limit) as builder, TreeWalk(builder, tree) as items:
                        wanted = [it.path[3:] for it in items][1:]
                except LimitError:
                    wanted = None
                try:
                    found = self.paths(limit=limit)
                except LimitError:
                    found = None
                self.assertEqual(found, wanted, limit)
        self.assertIsNotNone(wanted)
        self.assertEqual(next(walk(self.top, sort=True, limit=3)).name, "a")
        self.assertEqual(len(list(walk(self.top, limit=(1 << 64) - 1))), 3)
        with self.assertRaises(OverflowError):
            walk(self.top, limit=-1)

    def test_globs_types_lines_and_files_that_are_given(self):
        for name in ("a.rs", "b.py", "c.web", "d/e.rs", "d/f.txt"):
            self.put(name)
        self.put("rules", "d\n")
        self.put("other/mine", "/b.py\n")
        rows = [
            ({"overrides": ["*.rs"]}, ["a.rs", "d", "d/e.rs", "other"]),
            ({"overrides": ["!*.rs"], "max_depth": 1}, ["b.py", "c.web", "d", "other", "rules"]),
            ({"types": ["rust"]}, ["a.rs", "d", "d/e.rs", "other"]),
            ({"types_not": ["rust"], "max_depth": 1}, ["b.py", "c.web", "d", "other", "rules"]),
            ({"types": ["web"], "type_defs": ["web:*.web"]}, ["c.web", "d", "other"]),
            ({"types_not": ["elixir", "txt"], "max_depth": 1, "overrides": ["!rules"]},
             ["a.rs", "b.py", "c.web", "d", "other"]),
            ({"lines": ["d/f.txt", "/*.rs", "other", "rules"]}, ["b.py", "c.web", "d", "d/e.rs"]),
            ({"ignore_files": [self.top / "rules"], "max_depth": 1},
             ["a.rs", "b.py", "c.web", "other", "rules"]),
            ({"lines": ["a.rs", "e.rs", "!/d/e.rs"], "overrides": iter(["!other"]),
              "types": iter(["rust"])}, ["d", "d/e.rs"]),
        ]
        for settings, wanted in rows:
            self.assertEqual(self.paths(**settings), wanted, settings)
        home = os.getcwd()
        os.chdir(self.top)
        try:
            found = self.paths(ignore_files=[b"other/mine"], max_depth=1)
        finally:
            os.chdir(home)
        self.assertEqual(found, ["a.rs", "c.web", "d", "other", "rules"])
        with Matcher(self.top, lines=["x/"]) as matcher:
            self.assertTrue(matcher.is_ignored("d/x/y"))
        for wrong in ({"overrides": ["{"]}, {"types": ["no such type"]}, {"lines": ["a", "{"]},
                      {"ignore_files": [self.top / "none"]}, {"type_defs": ["x"], "types": ["c"]}):
            with self.assertRaises(InvalidRuleError):
                walk(self.top, **wrong)
        for name in ("overrides", "types", "lines", "ignore_files"):
            with self.assertRaises(TypeError):
                walk(self.top, **{name: "*.rs"})

    def test_a_matcher_goes_on_after_an_interruption(self):
        (self.top / "a" / "b").mkdir(parents=True)
        (self.top / "a" / ".ignore").write_text("x\n")
        for name in ("enter", "leave"):
            with Matcher(self.top) as matcher:
                matcher.match("a/b/y")
                call = getattr(Guide, name)

                def stops(*words):
                    call(*words)
                    raise KeyboardInterrupt

                with mock.patch.object(Guide, name, stops):
                    with self.assertRaises(KeyboardInterrupt):
                        matcher.forget("a")
                        matcher.match("a/b/y")
                self.assertTrue(matcher.match("a/b/x", False).is_ignore)
                self.assertEqual((matcher.forget("a"), matcher.forget()), (2, 1))

    def test_a_file_that_becomes_a_pipe_is_not_waited_for(self):
        regular, stat = os.stat(__file__), os.stat
        os.mkfifo(self.top / ".ignore")

        def stats(path, **how):
            return regular if os.path.basename(path) == ".ignore" else stat(path, **how)

        with mock.patch("os.stat", stats):
            self.assertEqual([it.name for it in walk(self.top, hidden=False)], [".ignore"])

    def test_an_entry_whose_kind_cannot_be_known(self):
        entry = mock.Mock()
        entry.name, entry.is_dir.side_effect = "a", PermissionError
        listing = mock.MagicMock()
        listing.__enter__.return_value = [entry]
        with mock.patch("os.scandir", return_value=listing):
            self.assertEqual(list(walk(self.top)), [entry])

    def test_a_working_directory_that_is_gone(self):
        (self.top / "a").write_text("")
        with mock.patch("os.getcwd", side_effect=FileNotFoundError):
            self.assertEqual([it.name for it in walk(self.top)], ["a"])
            with Matcher(self.top, lines=["a"], max_filesize=9) as matcher:
                self.assertTrue(matcher.match("a").is_ignore)
                self.assertTrue(matcher.match("\0").is_none)

    def test_a_directory_is_left_after_what_is_in_it(self):
        for number in range(30):
            self.put(f"{number}/in/.ignore", "x\n")
        inside = []

        class Counting(Guide):
            def root(self, path):
                inside.append("")
                return super().root(path)

            def enter(self, parent, name, listed=None):
                inside.append(name)
                return super().enter(parent, name, listed)

            def leave(self, place):
                inside.pop()
                super().leave(place)

        with mock.patch.object(sys.modules["ignore_proved.walk"], "Guide", Counting):
            for entry in walk(self.top, sort=True):
                names = os.path.relpath(entry.path, self.top).split("/")
                self.assertEqual(inside, ["", *names[:-1]])
        self.assertEqual(inside, [])


if __name__ == "__main__":
    unittest.main()
