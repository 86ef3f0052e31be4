"""The names of the package `pathspec`, with git's answers."""
import copy
import doctest
import importlib
import os
import pathlib
import pickle
import pkgutil
import random
import re
import subprocess
import sys
import tempfile
import threading
import unittest

import ignore_proved
from ignore_proved import pathspec
from ignore_proved.pathspec import GitIgnoreSpec, PathSpec, RegexPattern, util
from ignore_proved.pathspec._git import of_git
from ignore_proved.pathspec._lines import MOST_FOLDERS
from ignore_proved.pathspec.patterns import GitWildMatchPattern

LINES = ["*.o\n", "# a comment\n", "!keep.o\r\n", "build/\n", "\n"]


def spec_of(lines, kind=PathSpec):
    return kind.from_lines("gitwildmatch", lines)


def git_of(lines):
    return GitIgnoreSpec.from_lines(lines)


class Answers(unittest.TestCase):
    def test_git_decides_from_the_top_down(self):
        spec = git_of(LINES)
        ignored = ["a.o", "x/a.o", "build/", "build/keep.o", "x/build/y", "/a.o", "./a.o"]
        for path in [*ignored, "keep.o", "build", "c", "", ".", "./", "/"]:
            self.assertIs(spec.match_file(path), path in ignored, path)
            self.assertIs(spec.check_file(path).include is True, path in ignored, path)
        self.assertFalse(git_of(["*/"]).match_file("a"))
        self.assertFalse(git_of(["*/", "!a"]).match_file("a/b"))

    def test_the_last_line_decides_of_a_path_spec(self):
        """A line matches what is in a folder that it matches, as in `pathspec`."""
        rows = [
            (["a/", "!a/b"], {"a/c": 0, "a/b": 1, "a": None}),
            (["!a/b", "a/"], {"a/b": 1}),
            (["/bin/", "!/bin/*.yaml", "*.y"], {"bin/x.yaml": 1, "bin/d/x.yaml": 0, "bin/x.y": 2}),
            (["*", "!*/", "!*.py"], {"a": 0, "a/b": 1, "a.py": 2}),
            (["*", "!#a", "!!b"], {"#a": 1, "!b": 2, "b": 0}),
        ]
        for lines, paths in rows:
            for path, index in paths.items():
                include = None if index is None else not lines[index].startswith("!")
                found = spec_of(lines).check_file(path)
                self.assertEqual((found.include, found.index), (include, index), (lines, path))
                self.assertIs(spec_of(lines).match_file(path), bool(include), (lines, path))

    def test_lines_are_read_as_git_reads_them(self):
        """Each row was asked of `git check-ignore --no-index`."""
        rows = [
            ("{a,b}", ["{a,b}"], ["a", "b"]), ("***/a", ["a", "x/a", "x/y/a"], ["b"]),
            ("[[:digit:]x]", ["1", "x"], ["a"]), ("[\\]a]", ["]", "a"], ["\\"]),
            ("[z-a]", ["z"], ["a"]), ("[!z-a]", ["a"], ["z", "ab"]),
            ("a[!b]c", ["axc"], ["abc", "a/c"]), ("[a/b]", ["a"], ["x/a", "/"]),
            ("[+-0]", ["+", ",", "0", "-"], ["1", "."]), ("[]-a]", ["]", "_", "a"], ["-", "b"]),
            ("[\\!]", ["!"], ["\\"]), ("[\\^!]", ["^", "!"], ["\\"]),
            ("[]!^-]", ["]", "!", "^", "-"], ["a"]), ("[a-c-]", ["a", "b", "-"], ["d"]),
            ("[!]-]", ["a"], ["]", "-"]), ("[a", [], ["[a", "a"]), ("a\\", [], ["a", "a\\"]),
            ("a\\\\", ["a\\"], ["a"]), ("a\\\\/", ["a\\/b"], ["a\\", "a/b"]),
            ("a\\ ", ["a "], ["a"]), ("a ", ["a"], ["a "]), ("\\#a", ["#a"], ["a"]),
            ("!", [], ["a"]), ("[[:bad:]]", [], ["b"]), ("a\t", ["a\t"], ["a"]),
            ("[^a]", ["b"], ["a"]),
        ]
        for line, ignored, kept in rows:
            for kind in (PathSpec, GitIgnoreSpec):
                spec = spec_of([line], kind)
                found = [it for it in ignored + kept if spec.match_file(it)]
                self.assertEqual(found, ignored, line)
        self.assertIsNone(of_git("[" + "[:" * 9))
        self.assertFalse(spec_of(["*", "!", "!a\nb"]).check_file("a\nb").index)
        self.assertTrue(spec_of(["a\r\r\n"]).match_file("a\r"))

    def test_names_that_are_not_utf8(self):
        spec = spec_of([b"\xff*\n", "\udcfe"])
        for path in (b"\xffa", "\udcffa", b"x/\xfe", pathlib.Path("\udcff")):
            self.assertTrue(spec.match_file(path))
        self.assertFalse(spec.match_file("\uf7ffa"))

    def test_what_is_kept_of_folders_changes_no_answer(self):
        """Asked of one spec after others, a path has the answer of a spec that is asked first."""
        lines = ["a/", "!a/b", "*/c/", "!c/d/", "d/**/a", "!*.a", "b/*"]
        names = ["a", "b", "c", "d", "e.a", "", ".", "x" * 1100]
        chance = random.Random(1)
        paths = ["/".join(chance.choices(names, k=chance.randint(1, 6))) for _ in range(3000)]
        for kind in (PathSpec, GitIgnoreSpec):
            spec = spec_of(lines, kind)
            spec.match_file("a")
            own = spec._lines._own
            for path in [*paths, *paths[:500]]:
                found, matched = spec.check_file(path), spec.match_file(path)
                self.assertEqual(matched, bool(found.include), path)
                kept, own.folders = own.folders, {}
                self.assertEqual(spec.check_file(path), found, path)
                own.folders = {}
                self.assertEqual(spec.match_file(path), matched, path)
                own.folders = kept
            for number in range(2 * MOST_FOLDERS):
                spec.match_file(f"{number}/a")
            self.assertLessEqual(len(own.folders), MOST_FOLDERS)
            spec.match_file("/".join(["deep"] * 5000))
            self.assertLess(max(map(len, own.folders)), 2000)

    def test_a_list_is_asked_on_whatever_thread_takes_it(self):
        matched = spec_of(LINES).match_files(["a.o", "c", "b.o", "build/x"])
        found = [next(matched)]
        thread = threading.Thread(target=lambda: found.extend(matched))
        thread.start()
        thread.join()
        self.assertEqual(found, ["a.o", "b.o", "build/x"])

    def test_files_and_entries(self):
        spec, files = git_of(LINES), ["a.o", pathlib.Path("keep.o"), b"build/x", "c"]
        self.assertEqual(list(spec.match_files(files)), [files[0], files[2]])
        self.assertEqual(list(spec.match_files(files, negate=True)), [files[1], files[3]])
        self.assertTrue(spec_of(["a/b"]).match_file("a\\b", ["\\"]))
        self.assertFalse(spec_of(["a/b"]).match_file("a\\b"))
        found = spec.check_files(["a.o", "c", "keep.o", "build/keep.o"])
        self.assertEqual([(it.file, it.include, it.index) for it in found],
                         [("a.o", True, 0), ("c", None, None), ("keep.o", False, 2),
                          ("build/keep.o", True, 3)])
        self.assertEqual(pathspec.match_files(spec, files[:3]), {files[0], files[2]})
        self.assertEqual(util.normalize_files(["./a", "/a", "b"]), {"a": ["./a", "/a"], "b": ["b"]})
        self.assertEqual(list(spec.patterns[0].match(["a.o", "b"])), ["a.o"])
        for wrong in ("a.o", b"a.o"):
            for call in (spec.match_files, spec.match_entries, spec.check_files):
                with self.assertRaises(TypeError):
                    list(call(wrong))

    def test_other_patterns_among_lines(self):
        spec = PathSpec([RegexPattern("a+$"), GitWildMatchPattern("!aa"), GitWildMatchPattern("x/"),
                         RegexPattern(None), RegexPattern(re.compile("x/a"), False)])
        rows = {"a": (True, 0), "aa": (False, 1), "x/b": (True, 2), "x/a": (False, 4),
                "b": (None, None)}
        for path, wanted in rows.items():
            found = spec.check_file(path)
            self.assertEqual((found.include, found.index), wanted)
            self.assertEqual(spec.match_file(path), bool(wanted[0]))
        self.assertEqual(pickle.loads(pickle.dumps(spec)), spec)
        self.assertTrue(util.match_file(spec, "x/b"))
        with self.assertRaises(NotImplementedError):
            pathspec.Pattern(True).match_file("a")


class Values(unittest.TestCase):
    def test_specs_are_their_patterns(self):
        one, other = spec_of(LINES), spec_of(["*.o", "", "# b", "!keep.o", "build/  ", "  "])
        self.assertEqual(one, other)
        self.assertNotEqual(one, spec_of(["*.o"]))
        self.assertNotEqual(one, LINES)
        self.assertEqual((len(one), len(list(one)), [it.include for it in one.patterns]),
                         (5, 5, [True, None, False, True, None]))
        both = one + spec_of(["c"])
        self.assertTrue(both.match_file("c") and both.match_file("a.o") and not one.match_file("c"))
        one += spec_of(["c"])
        self.assertTrue(one == both and one.match_file("c"))
        with self.assertRaises(TypeError):
            one + ["c"]
        git = spec_of(["c"], GitIgnoreSpec)
        self.assertTrue(git != spec_of(["c"]) and spec_of(["c"]) != git)
        self.assertEqual(git, GitIgnoreSpec.from_lines(["c"]))
        self.assertIs(type(git + git), GitIgnoreSpec)
        for unhashable in (one, git, GitWildMatchPattern("a")):
            with self.assertRaises(TypeError):
                hash(unhashable)
        for wrong in ("a", b"a"):
            with self.assertRaises(TypeError):
                spec_of(wrong)
        with self.assertRaises(KeyError):
            PathSpec.from_lines("no such kind", [])
        with self.assertRaises(util.AlreadyRegisteredError) as raised:
            util.register_pattern("gitignore", RegexPattern)
        self.assertEqual(raised.exception.pattern_factory, GitWildMatchPattern)
        util.register_pattern("own", RegexPattern)
        self.assertTrue(PathSpec.from_lines("own", ["a+$"]).match_file("aa"))
        with self.assertRaises(TypeError):
            PathSpec.from_lines(None, [])
        self.assertFalse(spec_of([]))

    def test_they_are_copied_pickled_and_used_on_threads(self):
        spec = spec_of(LINES)
        spec.match_file("a.o")
        found = []
        for other in (copy.copy(spec), copy.deepcopy(spec), pickle.loads(pickle.dumps(spec))):
            self.assertEqual(other, spec)
            self.assertTrue(other.match_file("a.o"))
        ask = lambda: found.append(spec.match_file("a.o"))  # noqa: E731
        threads = [threading.Thread(target=ask) for _ in range(8)]
        for each in threads:
            each.start()
        for each in threads:
            each.join()
        self.assertEqual(found, [True] * 8)
        pattern = pickle.loads(pickle.dumps(spec.patterns[2]))
        self.assertTrue(pattern.match_file("keep.o"))
        self.assertEqual(pattern.pattern, "!keep.o")
        self.assertEqual(repr(pattern), "GitWildMatchPattern('!keep.o')")

    def test_escape(self):
        for name in ("a[1]*.c", "!a", "#a", "a?"):
            line = GitWildMatchPattern.escape(name)
            self.assertEqual(GitWildMatchPattern.escape(name.encode()), line.encode())
            self.assertTrue(spec_of([line]).match_file(name))
        self.assertFalse(spec_of([GitWildMatchPattern.escape("a*")]).match_file("ab"))


class Trees(unittest.TestCase):
    def test_the_files_of_a_folder(self):
        with tempfile.TemporaryDirectory() as top:
            for name in ("build/x", "a.o", "d/e/f", "d/keep.o"):
                path = pathlib.Path(top, name)
                path.parent.mkdir(parents=True, exist_ok=True)
                path.write_text("")
            os.symlink("e", f"{top}/d/l")
            os.symlink("none", f"{top}/gone")
            spec, errors = spec_of(LINES), []
            self.assertEqual(sorted(util.iter_tree_files(top, errors.append)),
                             ["a.o", "build/x", "d/e/f", "d/keep.o", "d/l/f"])
            self.assertEqual([type(it) for it in errors], [FileNotFoundError])
            self.assertEqual(sorted(util.iter_tree_files(top, follow_links=False)),
                             ["a.o", "build/x", "d/e/f", "d/keep.o", "d/l"])
            self.assertEqual(sorted(spec.match_tree_files(top)), ["a.o", "build/x"])
            self.assertEqual(sorted(spec.match_tree(top, negate=True)),
                             ["d/e/f", "d/keep.o", "d/l/f"])
            self.assertEqual(sorted(it.path for it in spec.match_tree_entries(top)),
                             ["a.o", "build", "build/x"])
            found = {it.file: it.index for it in spec.check_tree_files(top)}
            self.assertEqual(found["d/keep.o"], 2)
            os.symlink("..", f"{top}/d/up")
            with self.assertRaises(util.RecursionError) as raised:
                list(util.iter_tree_files(top))
            found = raised.exception
            self.assertEqual((found.first_path, found.second_path), ("", "d/up"))
            with self.assertRaises(FileNotFoundError):
                list(util.iter_tree_files(f"{top}/none"))
            self.assertEqual(util.append_dir_sep(pathlib.Path(top)), top + "/")

    def test_deep_folders(self):
        with tempfile.TemporaryDirectory() as top:
            home = os.open(".", os.O_RDONLY)
            os.chdir(top)
            try:
                for _ in range(1500):
                    os.mkdir("d")
                    os.chdir("d")
            finally:
                os.fchdir(home)
                os.close(home)
            errors = []
            found = sum(1 for _ in util.iter_tree_entries(top, errors.append))
            self.assertGreater(found, 1000)
            subprocess.run(["rm", "-r", f"{top}/d"], check=True)


class Modules(unittest.TestCase):
    def test_it_stands_for_pathspec(self):
        code = ("import pathspec\nfrom pathspec import GitIgnoreSpec\n"
                "from pathspec.patterns.gitwildmatch import GitWildMatchPatternError\n"
                "from pathspec.util import iter_tree_files\nimport pathspec.gitignore\n"
                "assert pathspec.PathSpec.from_lines('gitwildmatch', ['a']).match_file('a')\n"
                "assert pathspec.gitignore.GitIgnoreSpec is GitIgnoreSpec\n"
                "assert GitIgnoreSpec.__module__ == 'ignore_proved.pathspec.gitignore'\n")
        first = "from ignore_proved.pathspec import stand_in\nstand_in()\nstand_in()\n"
        subprocess.run([sys.executable, "-c", first + code], check=True)
        with tempfile.TemporaryDirectory() as folder:
            pathlib.Path(folder, "asks.py").write_text(f"import sys\n{code}print(sys.argv[1:])\n")
            words = [sys.executable, "-m", "ignore_proved.pathspec"]
            env = {**os.environ, "PYTHONPATH": os.pathsep.join([*filter(None, sys.path), folder])}
            ran = subprocess.run([*words, "asks", "-x"], env=env, stdout=subprocess.PIPE,
                                 check=True)
            self.assertEqual(ran.stdout, b"['-x']\n")
            ran = subprocess.run(words, env=env, stderr=subprocess.PIPE, check=False)
            self.assertEqual(ran.returncode, 2)
            pathlib.Path(folder, "pathspec.py").write_text("")
            ran = subprocess.run([sys.executable, "-c", f"import pathspec\n{first}"], env=env,
                                 stderr=subprocess.PIPE, check=False)
            self.assertIn(b"imported already", ran.stderr)

    def test_the_examples_of_docstrings(self):
        tried = 0
        for it in pkgutil.walk_packages(ignore_proved.__path__, "ignore_proved."):
            # (beside the modules of a wheel stands the shared library, which is none)
            if it.name == "ignore_proved.libignore_proved":
                continue
            found = doctest.testmod(importlib.import_module(it.name))
            self.assertEqual(found.failed, 0, it.name)
            tried += found.attempted
        tried += doctest.testmod(ignore_proved).attempted
        self.assertGreater(tried, 10)


if __name__ == "__main__":
    unittest.main()
