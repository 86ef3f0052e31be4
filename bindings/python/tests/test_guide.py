"""Guides: directories that the caller lists himself, over a disk and over answers of his own."""
import os
import pathlib
import tempfile
import unittest

from ignore_proved import Builder, Cause, Decision, Given, Guide, Listed, Match, MisusedError
from ignore_proved._library import IGNORE, NONE, WHITELIST, Place

MISSING = Given(0, b"", 0)


class OwnAnswers(unittest.TestCase):
    """A guide that is told of files which no disk has."""

    def setUp(self):
        self.files = {"/t/.ignore": b"*.o\n{\n!keep.o\n", "/t/sub/.mine": b"x\n"}
        self.asked = []

    def reads(self, wanted, path):
        self.asked.append((wanted, path))
        if wanted == 3:
            return Given(0, path.encode())
        content = self.files.get(path)
        return MISSING if content is None else Given(1, content)

    def guide(self, **settings):
        builder = Builder("", custom_ignore_filenames=[".mine"], **settings)
        with builder.env(current_dir="/"):
            return Guide(builder, self.reads)

    def test_entries_are_decided_on(self):
        with self.guide() as guide:
            top = guide.root("/t")
            [problem] = guide.problems()
            self.assertEqual(problem[:3], ("/t/.ignore", 2, "{"))
            self.assertEqual(guide.decide(top, "a.o", False), Match(Decision.IGNORE, False, True))
            self.assertEqual(guide.decide(top, "d", True), Match(Decision.NONE, True, True))
            listed = Listed.of(["a.o", "keep.o", ".h", "d"], [False, False, False, True])
            codes = [IGNORE + 8, WHITELIST + 8, IGNORE + 8, NONE + 4 + 8]
            self.assertEqual(list(guide.decide_all(top, listed)), codes)
            match, parts, texts = guide.why(top, "keep.o", False)
            self.assertEqual((match, parts.line), (Match(Decision.WHITELIST, False, True), 3))
            self.assertTrue(texts.endswith(b"!keep.o"))
            self.asked.clear()
            inside = guide.enter(top, "sub", Listed.of([".mine", "x"], [False, False]))
            self.assertEqual(self.asked, [(2, "/t/sub/.mine")])
            self.assertTrue(guide.decide(inside, "x", False).is_ignore)
            self.assertFalse(guide.decide(top, "x", False).is_ignore)
            self.assertEqual(guide.problems(), [])
            self.asked.clear()
            empty = guide.enter(inside, "empty", Listed.of([], []))
            self.assertEqual((self.asked, guide.decide_all(empty, Listed.of([], []))), ([], b""))
            unknown = guide.enter(inside, "unknown")
            self.assertIn((2, "/t/sub/unknown/.mine"), self.asked)
            for place in (unknown, empty, inside, top):
                guide.leave(place)

    def test_of_many_problems_the_first_are_told(self):
        self.files["/t/.ignore"] = b"{\n" * 1000
        with self.guide() as guide:
            guide.leave(guide.root("/t"))
            self.assertEqual([it.line for it in guide.problems()], list(range(1, 101)))
            self.assertEqual([it.line for it in guide.problems(2)], [1, 2])
            self.assertEqual(len(guide.problems(2000)), 1000)
            self.assertEqual(guide.problems(0), [])

    def test_sizes_and_depths(self):
        with self.guide(max_filesize=3, max_depth=1) as guide:
            top = guide.root("/t")
            self.assertTrue(guide.decide(top, "a", False, 4).is_ignore)
            self.assertFalse(guide.decide(top, "a", False, 3).is_ignore)
            listed = Listed.of(["a", "b", "d"], [False, False, True])
            self.assertEqual(list(guide.decide_all(top, listed, [4, 3, 9])),
                             [IGNORE + 8, NONE + 8, NONE + 8])
            with self.assertRaises(OverflowError):
                guide.decide(top, "a", False, -1)

    def test_sizes_and_depths_are_reasons(self):
        with self.guide(max_filesize=3, max_depth=2, min_depth=2) as guide:
            top = guide.root("/t")
            inside = guide.enter(top, "sub")
            deep = guide.enter(inside, "deep")
            for place, name, size, wanted in (
                (top, "a", 4, Cause.TOO_SHALLOW), (inside, "a", 4, Cause.LARGER),
                (inside, "a", 3, Cause.NO_RULE), (inside, "a", None, Cause.NO_RULE),
                (inside, "a.o", 4, Cause.RULE), (deep, "a.o", 4, Cause.TOO_DEEP),
            ):
                match, parts, _ = guide.why(place, name, False, size)
                self.assertEqual(Cause(parts.kind), wanted)
                self.assertEqual(match, guide.decide(place, name, False, size))
            _, parts, _ = guide.why(inside, "a", False, 4)
            self.assertEqual((parts.size, parts.limit), (4, 3))
            self.assertEqual(Cause(guide.why(top, "a", True)[1].kind), Cause.NO_RULE)

    def test_misuse_is_an_error(self):
        with self.guide() as guide:
            with self.assertRaises(MisusedError):
                guide.decide(Place(), "a", False)
            top = guide.root("/t")
            inside = guide.enter(top, "sub")
            for call in (
                lambda: guide.leave(top), lambda: guide.enter(top, ".."),
                lambda: guide.enter(top, "a/b"), lambda: guide.decide(top, "", False),
                lambda: guide.decide_all(top, Listed(b"a\0", b"\1\1")),
                lambda: guide.decide_all(top, Listed(b"a", b"\1")),
            ):
                with self.assertRaises(MisusedError):
                    call()
            guide.leave(inside)
            with self.assertRaises(MisusedError):
                guide.leave(inside)
            with self.assertRaises(MisusedError):
                guide.why(inside, "a", False)

    def test_a_function_that_raises_ends_the_call(self):
        def raises(wanted, path):
            if path.startswith("/t/sub"):
                raise KeyError(path)
            return self.reads(wanted, path)

        with Builder("") as builder, Guide(builder, raises) as guide:
            top = guide.root("/t")
            for _ in range(3):
                with self.assertRaises(KeyError):
                    guide.enter(top, "sub")
            self.assertTrue(guide.decide(top, "a.o", False).is_ignore)
            guide.leave(guide.enter(top, "other"))
            guide.leave(top)

    def test_an_answer_that_is_none_ends_the_call(self):
        given = []

        def reads(wanted, path):
            return given[0] if path.startswith("/t/sub") and given else self.reads(wanted, path)

        with Builder("") as builder, Guide(builder, reads) as guide:
            top = guide.root("/t")
            for wrong, error in (
                (Given(99), MisusedError), (Given(1, "x"), TypeError), (None, TypeError),
                (Given(1, b"", 99), MisusedError), (Given(1 << 32), OverflowError),
                (Given(0, None, 0), TypeError), (Given("1"), TypeError),
            ):
                given[:] = [wrong]
                with self.assertRaises(error):
                    guide.enter(top, "sub")
            given.clear()
            guide.leave(guide.enter(top, "sub"))
            guide.leave(top)

    def test_files_of_rules_are_asked_for_first(self):
        self.files["/w/mine"] = b"*.mine\n"
        builder = Builder("", custom_ignore_filenames=[".mine"])
        builder.add_ignore_path("/w/mine").add_ignore_path("/w/none")
        with builder.env(current_dir="/"), Guide(builder, self.reads) as guide:
            top = guide.root("/t")
            self.assertEqual(self.asked[:2], [(2, "/w/mine"), (2, "/w/none")])
            self.assertTrue(guide.decide(top, "a.mine", False).is_ignore)
            self.assertEqual([it.path for it in guide.problems()], ["/w/none", "/t/.ignore"])

    def test_names_that_are_not_utf8(self):
        self.files = {os.fsdecode(b"/t/a\xff/.mine"): b"?y\n"}
        with self.guide() as guide:
            top = guide.root("/t")
            listed = Listed.of([".mine", os.fsdecode(b"\xfey"), "zz"], [False] * 3)
            inside = guide.enter(top, os.fsdecode(b"a\xff"), listed)
            self.assertEqual(list(guide.decide_all(inside, listed))[1:], [IGNORE + 8, NONE + 8])


class OnDisk(unittest.TestCase):
    def test_the_disk_is_read(self):
        with tempfile.TemporaryDirectory() as folder, Builder("") as builder:
            top = pathlib.Path(os.path.realpath(folder))
            (top / "real").write_text("*.o\n")
            (top / ".ignore").symlink_to("real")
            (top / "sub" / ".gitignore").mkdir(parents=True)
            with Guide(builder) as guide:
                root = guide.root(top)
                inside = guide.enter(root, "sub", Listed.of([".gitignore"], [True]))
                self.assertTrue(guide.decide(inside, "a.o", False).is_ignore)
                self.assertEqual(guide.problems(), [])


if __name__ == "__main__":
    unittest.main()
