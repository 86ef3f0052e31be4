"""What the header forbids isn't reached through the package: each attempt is an ordinary error."""
import copy
import gc
import os
import pathlib
import pickle
import subprocess
import sys
import tempfile
import threading
import unittest
from unittest import mock

from ignore_proved import (
    Builder, Guide, Listed, Matcher, MisusedError, NotUtf8Error, Rules, Tree, TreeError,
    TreeMatcher, TreeWalk, walk,
)
from ignore_proved import _library as lib
from ignore_proved.every import Findings


def each_kind():
    """One object of each kind, and a call of it."""
    tree, builder, rules = Tree("/"), Builder("/"), Rules("", ["a"])
    matcher, items = TreeMatcher(builder, tree), TreeWalk(builder, tree)
    guide, findings = Guide(builder), Findings(rules.built(), 100)
    return [
        (tree, lambda: tree.add_dir("/a")),
        (builder, lambda: builder.add("/a")),
        (rules, lambda: rules.is_ignored("a")),
        (matcher, lambda: matcher.match(Tree("/"), "a", False)),
        (items, lambda: next(items)),
        (guide, lambda: guide.problems()),
        (findings, lambda: findings.all()),
    ]


class Freed:
    """Counts the calls that free, by the handles that they are given."""

    def __init__(self, kind):
        self.kind, self.given = kind, []

    def __enter__(self):
        call = getattr(lib.library, f"ignore_{self.kind}_free")

        def free(handle):
            self.given.append(handle.at)
            call(handle)

        self.patch = mock.patch.object(lib.library, f"ignore_{self.kind}_free", free)
        self.patch.start()
        return self

    def __exit__(self, *raised):
        self.patch.stop()


def in_a_thread(call):
    """Makes a call in another thread."""
    thread = threading.Thread(target=call)
    thread.start()
    thread.join()


def asked_again(name, ask):
    """Has another question asked once, as a signal's handler may, after a call of this name."""
    call, left = getattr(lib.library, name), [ask]

    def calls(*words):
        code = call(*words)
        if left:
            left.pop()()
        return code

    return mock.patch.object(lib.library, name, calls)


class Long(bytes):
    """Bytes that say to be more."""

    def __len__(self):
        return 1 << 40


class Misuse(unittest.TestCase):
    def test_a_closed_object_answers_no_call(self):
        for it, call in each_kind():
            it.close()
            it.close()
            with self.assertRaises(MisusedError):
                call()

    def test_no_object_is_copied(self):
        for it, call in each_kind():
            for way in (copy.copy, copy.deepcopy, pickle.dumps):
                with self.assertRaises(TypeError):
                    way(it)
            call()
        with tempfile.TemporaryDirectory() as folder, Matcher(folder) as matcher:
            with self.assertRaises(TypeError):
                copy.deepcopy(matcher)

    def test_a_close_that_is_interrupted_frees_once(self):
        with Freed("tree") as freed:
            free = lib.library.ignore_tree_free

            def stop(handle):
                free(handle)
                raise KeyboardInterrupt

            raised = mock.Mock()
            with mock.patch.object(lib.library, "ignore_tree_free", stop):
                tree = Tree("/")
            with mock.patch("sys.unraisablehook", raised):
                tree.close()
            tree.close()
            del tree
        self.assertEqual((len(freed.given), raised.call_count), (1, 1))

    def test_a_close_while_a_call_has_the_handle_waits_for_its_end(self):
        with Freed("rules") as freed:
            rules = Rules("", ["a"])
            lent = rules.handle
            rules.close()
            self.assertEqual(freed.given, [])
            del lent
            self.assertEqual(len(freed.given), 1)
            with self.assertRaises(MisusedError):
                rules.is_ignored("a")

    def test_a_signal_handler_that_closes_the_object_in_use(self):
        code = (
            "import signal\nfrom ignore_proved import MisusedError, Rules\n"
            "ends = set()\n"
            "for n in range(1000):\n"
            "    rules = Rules('', ['*.o'])\n"
            "    signal.signal(signal.SIGALRM, lambda *_: rules.close())\n"
            "    signal.setitimer(signal.ITIMER_REAL, 0.0004 + n % 50 * 1e-6)\n"
            "    try:\n"
            "        while True: rules.match('a/b/c.o')\n"
            "    except MisusedError as error: ends.add(str(error))\n"
            "print(ends)\n"
        )
        ran = subprocess.run([sys.executable, "-c", code], capture_output=True, text=True,
                             env=dict(os.environ), check=False)
        self.assertEqual((ran.returncode, ran.stdout), (0, "{'the rules is closed'}\n"))

    def test_one_text_for_several(self):
        for call in (
            lambda: Rules("", "*.o"), lambda: Rules("", b"*.o"), lambda: Rules("", ""),
            lambda: Builder("/", custom_ignore_filenames=".mine"),
            lambda: Builder("/").overrides("/", "*.c"), lambda: Builder("/").choose_types("rust"),
            lambda: Matcher(".", custom_ignore_filenames=".mine"),
        ):
            with self.assertRaisesRegex(TypeError, "several texts are wanted"):
                call()

    def test_a_failed_or_second_init(self):
        with Freed("tree") as freed:
            for cwd in ("x", b"/\xff"):
                with self.assertRaises((TreeError, NotUtf8Error)):
                    Tree(cwd)
            tree = Tree("/")
            with self.assertRaises(TreeError):
                tree.__init__("x")
            tree.add_dir("/a")
            tree.__init__("/")
            tree.add_dir("/a")
            tree.close()
            Tree.__new__(Tree).close()
            with self.assertRaises(MisusedError):
                Tree.__new__(Tree).add_dir("/a")
        self.assertEqual(len(freed.given), 2)
        with self.assertRaises(TypeError):
            Builder("/", no_such_setting=True)

    def test_a_text_or_a_bool_that_closes(self):
        for kind in ("path", "bool"):
            for ask in ("match", "is_ignored", "match_path_or_any_parents"):
                rules = Rules("", ["a"])
                rules.match("a")

                class Closing:
                    def __fspath__(self):
                        rules.close()
                        return "a"

                    def __bool__(self):
                        rules.close()
                        return True

                words = (Closing(), False) if kind == "path" else ("a", Closing())
                with self.assertRaises(MisusedError):
                    getattr(rules, ask)(*words)

    def test_a_text_with_another_length(self):
        class Text(str):
            def encode(self, *words):
                return Long(b"b")

        rules = Rules("", ["a"])
        self.assertTrue(rules.is_ignored(Long(b"a")))
        self.assertTrue(rules.is_ignored(Text("a")))
        for other in (bytearray(b"a"), memoryview(b"a"), None, 1):
            with self.assertRaises(TypeError):
                rules.is_ignored(other)

    def test_listings_and_sizes_with_another_length(self):
        class More(list):
            lengths = [1, 1 << 20]

            def __len__(self):
                return self.lengths.pop(0) if self.lengths else 1

        with Builder("") as builder, Guide(builder, lambda *_: (0, Long(b"/t"), None)) as guide:
            top = guide.root("/t")
            self.assertEqual(len(guide.decide_all(top, Listed(Long(b"a\0"), Long(b"\1")))), 1)
            guide.leave(guide.enter(top, "sub", Listed(Long(b".\0"), b"")))
            many = Listed.of(["a"] * 10, [False] * 10)
            for sizes in (More([1]), [1], []):
                with self.assertRaises(MisusedError):
                    guide.decide_all(top, many, sizes)
            for wrong in (-1, 1 << 64):
                with self.assertRaises(OverflowError):
                    guide.decide_all(top, Listed.of(["a"], [False]), [wrong])

    def test_one_handle_for_two(self):
        tree, builder = Tree("/"), Builder("/")
        matcher = TreeMatcher(builder, tree)
        for call in (
            lambda: TreeMatcher(builder, builder), lambda: TreeMatcher(tree, tree),
            lambda: TreeWalk(builder, builder), lambda: TreeWalk(tree, tree),
            lambda: builder.add_ignore(builder, "/x"), lambda: matcher.match(matcher, "a", False),
            lambda: Rules("", ["a"]).difference(tree), lambda: Rules("", ["a"]).same_as(["a"]),
        ):
            with self.assertRaises(TypeError):
                call()
        self.assertFalse(TreeMatcher(builder, tree).match(tree, "a", False))

    def test_another_thread_has_no_object(self):
        found = []

        def run(calls):
            for call in calls:
                try:
                    call()
                except MisusedError:
                    found.append(True)

        for it, call in each_kind():
            thread = threading.Thread(target=run, args=([call, it.close],))
            thread.start()
            thread.join()
            call()
        self.assertEqual(len(found), 14)

    def test_what_another_thread_collects_is_freed_there(self):
        with Freed("tree") as freed:
            held = [Tree("/") for _ in range(5)]
            in_a_thread(held.clear)
            gc.collect()
            self.assertEqual(len(freed.given), 5)
            in_a_thread(lambda: held.append(Tree("/")))
            held.clear()
            self.assertEqual(len(freed.given), 6)

    def test_a_walk_that_another_thread_ends(self):
        with tempfile.TemporaryDirectory() as folder, Freed("guide") as freed:
            pathlib.Path(folder, "x").write_text("")
            entries = walk(folder)
            next(entries)
            in_a_thread(entries.close)
            self.assertEqual((len(freed.given), list(entries)), (1, []))

    def test_a_handle_that_was_made_is_freed_where_its_call_is_interrupted(self):
        def stop(code):
            raise KeyboardInterrupt

        with Freed("tree") as freed, mock.patch("ignore_proved.tree.checked", stop):
            with self.assertRaises(KeyboardInterrupt):
                Tree("/")
            self.assertEqual(len(freed.given), 1)

    def test_rules_whose_building_was_interrupted_answer(self):
        rules = Rules("", ["a"])
        lib.library.ignore_rules_build(rules.handle)
        self.assertTrue(rules.is_ignored("a"))

    def test_a_question_from_inside_of_another(self):
        rules = Rules("", ["*.o", "long"])
        with asked_again("ignore_rules_decided", lambda: rules.match("long")):
            self.assertEqual(rules.match("a.o").reason.pattern, "*.o")
        with tempfile.TemporaryDirectory() as folder, Matcher(folder) as matcher:
            with asked_again("ignore_guide_decide", lambda: matcher.match("b", False)):
                self.assertTrue(matcher.match("a", True).should_descend)
            with asked_again("ignore_guide_enter", lambda: matcher.match("a/b", False)):
                self.assertTrue(matcher.match("a/b", True).should_descend)
            self.assertEqual(matcher.forget(), 2)

    def test_another_shared_object_is_not_the_library(self):
        import _ctypes
        ran = subprocess.run([sys.executable, "-c", "import ignore_proved"], capture_output=True,
                             env={**os.environ, lib.VARIABLE: _ctypes.__file__}, check=False)
        self.assertIn(b"ImportError: libignore_proved.so isn't there", ran.stderr)

    def test_numbers_that_do_not_fit(self):
        tree, builder = Tree("/"), Builder("/")
        tree.add_file("/f")
        for value in (-1, 1 << 64):
            for call in (
                lambda: builder.set(max_depth=value), lambda: builder.set(min_depth=value),
                lambda: builder.set(max_filesize=value), lambda: builder.set(limit=value),
                lambda: tree.set_size("/f", value), lambda: tree.set_identity("/f", value, 0),
                lambda: tree.set_identity("/f", 0, value),
                lambda: tree.cut_contents("/f", value, "Other"),
                lambda: Rules("", ["a"]).findings(limit=value),
                lambda: Rules("", ["a"]).same_as(Rules("", ["b"]), limit=value),
            ):
                with self.assertRaises(OverflowError):
                    call()
        builder.set(max_depth=(1 << 64) - 1, min_depth=None, limit=1)
        for wrong in ("1", 1.5):
            with self.assertRaises(TypeError):
                builder.set(limit=wrong)

    def test_walks_outlive_what_they_are_of(self):
        tree, builder = Tree("/"), Builder("/")
        tree.add_dir("/a")
        items = TreeWalk(builder, tree)
        tree.close()
        builder.close()
        self.assertEqual([it.path for it in items], ["/", "/a"])
        self.assertEqual(list(items), [])
        with tempfile.TemporaryDirectory() as folder:
            pathlib.Path(folder, "x").write_text("")
            entries = walk(folder)
            next(entries)
            entries.close()
            self.assertEqual(list(entries), [])
            matcher = Matcher(folder)
            matcher.close()
            with self.assertRaises(MisusedError):
                matcher.match("x")

    def test_objects_at_the_end_of_the_interpreter(self):
        code = (
            "import sys\nfrom ignore_proved import *\n"
            "class Held: pass\nheld = Held()\nheld.self, held.tree = held, Tree('/')\n"
            "builder = Builder('/')\nheld.items = TreeWalk(builder, held.tree)\n"
            "rules = Rules('', ['a'])\nentries = walk('/')\nnext(entries, None)\n"
            "sys.modules['held'] = held\n"
            "import ctypes\nctypes.held = Rules('', ['a']), Guide(builder)\n"
        )
        ran = subprocess.run([sys.executable, "-c", code], capture_output=True, text=True,
                             env=dict(os.environ), check=False)
        self.assertEqual((ran.returncode, ran.stderr), (0, ""))


if __name__ == "__main__":
    unittest.main()
