"""What the package adds to the library: objects, errors, texts of any length, files on disk."""
import gc
import os
import pathlib
import tempfile
import unittest

import ignore_proved
from ignore_proved import (
    Decision,
    InvalidRuleError,
    MisusedError,
    NotUtf8Error,
    OutsideError,
    Rules,
)


class RulesTest(unittest.TestCase):
    def test_the_last_rule_decides(self):
        rules = Rules("", ["*.o", "!keep.o"])
        self.assertIs(rules.match("src/a.o").decision, Decision.IGNORE)
        self.assertIs(rules.match("src/keep.o").decision, Decision.WHITELIST)
        self.assertIs(rules.match("src/a.c").decision, Decision.NONE)
        self.assertIsNone(rules.match("src/a.c").reason)
        self.assertTrue(rules.match("src/a.o"))
        self.assertFalse(rules.match("src/keep.o"))

    def test_a_reason_has_the_line_its_glob_and_its_source(self):
        rules = Rules("project").add_line("build/  ", source="project/.gitignore")
        reason = rules.match("project/build", is_dir=True).reason
        self.assertEqual(reason.pattern, "build/")
        self.assertEqual(reason.glob, "**/build")
        self.assertEqual(reason.source, "project/.gitignore")
        self.assertTrue(reason.is_only_dir)
        self.assertIsNone(Rules("", ["a"]).match("a").reason.source)

    def test_parents_count_where_they_are_asked_for(self):
        rules = Rules("", ["build/"])
        self.assertTrue(rules.match("build/a").is_none)
        self.assertTrue(rules.match_path_or_any_parents("build/a").is_ignore)
        with self.assertRaises(OutsideError):
            Rules("/r", ["a"]).match_path_or_any_parents("/other/a")

    def test_an_ignored_folder_decides_from_the_top_down(self):
        """As git decides: nothing below an ignored folder comes back, and the root isn't asked."""
        rows = [
            (["build/"], ["build/a", "x/build/a/b"], ["build", "a"]),
            (["a/", "!a/b", "!x"], ["a/b", "a/x", "b/a/x"], ["x", "b/x"]),
            (["*/"], ["a/b", "a/b/c"], ["a"]),
            (["/*/", "!a"], ["b/a"], ["a", "b", "a/b/c"]),
            (["*", "!*/", "!*.py"], ["a", "a/b"], ["x.py", "a/x.py"]),
            (["*", "!a/b"], ["a/b", "a/c", "c"], []),
        ]
        for lines, ignored, kept in rows:
            with Rules("", lines) as rules:
                for path in ignored + kept:
                    self.assertEqual(rules.is_ignored(path), path in ignored, (lines, path))
                    self.assertIs(bool(rules.match_as_git(path)), path in ignored)
        rows = [("r", "r/a"), ("./r", "./r/a"), ("/r", "/r/a"), ("/", "/a"), (".", "./a"),
                ("r/", "r/a"), ("r", "a"), ("", "/a"), ("r", "r/r/a")]
        for root, path in rows:
            with Rules(root, ["*/", "!a"]) as rules:
                self.assertEqual(rules.is_ignored(path), path.count("r") > 1, (root, path))
        with Rules("/r", ["other/", "!a"]) as rules:
            self.assertTrue(rules.is_ignored("/other/a"))
            self.assertEqual(rules.match_as_git("/r/other/a").reason.pattern, "other/")
            self.assertTrue(rules.match_as_git("/r/x/a").is_whitelist)
            self.assertIsNone(rules.match_as_git("/r/x").reason)
        with Rules("", ["*/"]) as rules:
            self.assertFalse(rules.is_ignored("", is_dir=True))

    def test_the_rules_are_listed(self):
        with Rules("", ["*.o", "", "!keep.o"]) as rules:
            rules.add_file("f", "# none\nbuild/\n" + "x" * 3000 + "\n")
            listed = rules.rules()
            self.assertEqual([(it.decision.name, it.reason.line) for it in listed],
                             [("IGNORE", None), ("WHITELIST", None), ("IGNORE", 2), ("IGNORE", 3)])
            self.assertEqual([it.reason.pattern for it in listed],
                             ["*.o", "!keep.o", "build/", "x" * 3000])
            self.assertEqual(listed[2], rules.match("build", is_dir=True))
        self.assertEqual(Rules("").rules(), [])

    def test_the_version_is_that_of_the_library(self):
        first, second, third = map(int, ignore_proved.__version__.split("."))
        version = 10000 * first + 100 * second + third
        self.assertEqual(ignore_proved._library.library.ignore_version(), version)

    def test_a_file_on_disk(self):
        with tempfile.TemporaryDirectory() as folder:
            path = pathlib.Path(folder, ".gitignore")
            path.write_text("*.log\n")
            with Rules.from_file(path) as rules:
                self.assertTrue(rules.is_ignored(os.path.join(folder, "a.log")))
                self.assertEqual(rules.match("a.log").reason.source, str(path))
            with self.assertRaises(FileNotFoundError):
                Rules.from_file(os.path.join(folder, "none"))

    def test_an_invalid_line_adds_nothing_and_says_why(self):
        rules = Rules("", ["*.o"])
        with self.assertRaisesRegex(InvalidRuleError, "unclosed alternates"):
            rules.add_line("{")
        with self.assertRaisesRegex(InvalidRuleError, "f: line 2: .*invalid range"):
            rules.add_file("f", "a\n[z-a]\nb\n")
        self.assertEqual((len(rules), rules.num_ignores, rules.num_whitelists), (3, 3, 0))

    def test_texts_of_any_length(self):
        rules = Rules("")
        with self.assertRaises(InvalidRuleError) as raised:
            rules.add_file("f" * 5000, "{\n" * 100)
        self.assertEqual(str(raised.exception).count("\n"), 99)
        rules.add_line("a" * 3000, source="s" * 3000)
        reason = rules.match("a" * 3000).reason
        self.assertEqual((reason.source, reason.pattern), ("s" * 3000, "a" * 3000))

    def test_options_are_of_later_lines(self):
        rules = Rules("", ["a"]).set_options(case_insensitive=True).add_line("b")
        self.assertFalse(rules.is_ignored("A"))
        self.assertTrue(rules.is_ignored("B"))

    def test_misuse(self):
        rules = Rules("", ["a"])
        rules.is_ignored("a")
        with self.assertRaises(MisusedError):
            rules.add_line("b")
        rules.close()
        rules.close()
        with self.assertRaises(MisusedError):
            rules.is_ignored("a")
        with self.assertRaises(NotUtf8Error):
            Rules("", ["a"]).is_ignored(b"\xff")
        with self.assertRaises(NotUtf8Error):
            Rules(b"\xff")

    def test_rules_are_freed_when_they_are_collected(self):
        def size():
            return int(pathlib.Path("/proc/self/statm").read_text().split()[1])

        line = "x" * 100_000
        for _ in range(20):
            Rules("", [line])
        gc.collect()
        before = size()
        for _ in range(200):
            Rules("", [line])
        self.assertLess(size() - before, 2000)


if __name__ == "__main__":
    unittest.main()
