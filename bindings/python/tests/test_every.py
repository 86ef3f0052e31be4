"""Rules over all paths: which of a list decide on nothing, and whether two lists say the same."""
import unittest

from ignore_proved import Dead, Decision, Difference, Finding, LimitError, MisusedError, Rules, Said


def found_in(lines, **words):
    """What is found of the dead rules of some lines."""
    with Rules("", lines) as rules:
        return rules.findings(**words)


def difference(before, after, **words):
    """Where two lists of lines differ."""
    with Rules("r", before) as one, Rules("/other", after) as two:
        found = one.difference(two, **words)
        assert one.same_as(two, **words) is (found is None)
        return found


class FindingsTest(unittest.TestCase):
    def test_a_rule_that_later_ones_overrule(self):
        self.assertEqual(found_in(["a.o", "*.o"]), [Finding(0, Dead.OVERRULED, (1,))])
        self.assertEqual(found_in(["a*", "!a", "a?*"]), [Finding(0, Dead.OVERRULED, (1, 2))])
        self.assertEqual(found_in(["*.o", "!*.o"]), [Finding(0, Dead.OVERRULED, (1,))])

    def test_a_rule_that_applies_to_nothing(self):
        self.assertEqual(found_in(["a//b"]), [Finding(0, Dead.UNMATCHED)])
        self.assertEqual(found_in(["*.o", ".."]), [Finding(1, Dead.UNMATCHED)])

    def test_a_rule_in_an_ignored_folder(self):
        found = found_in(["build/", "!build/keep"])
        self.assertEqual([(it.rule, it.why, it.path) for it in found],
                         [(1, Dead.BY_FOLDERS, "build/keep")])
        self.assertEqual((found[0].folder, found[0].folder_rule), ("build", 0))
        self.assertIsInstance(found[0].is_dir, bool)
        long = "é" * 2000
        found = found_in([f"/{long}/", f"!/{long}/b/"])
        self.assertEqual((found[0].path, found[0].folder), (f"{long}/b", long))
        self.assertIs(found[0].is_dir, True)

    def test_a_list_without_dead_rules(self):
        self.assertEqual(found_in(["*.o", "!keep.o", "build/"]), [])
        self.assertEqual(found_in([]), [])

    def test_the_dead_rules_are_listed(self):
        with Rules("", ["*.o", "!*.o", "x"]) as rules:
            self.assertEqual(rules.dead(), rules.rules()[:1])
            self.assertEqual(rules.match("a.o").decision, Decision.WHITELIST)

    def test_more_states_than_the_limit(self):
        for limit in (0, 1, 2):
            with self.assertRaises(LimitError):
                found_in(["a*b", "*c"], limit=limit)
        with Rules("", ["a*b", "*c"]) as rules, Rules("", ["*c"]) as other:
            with self.assertRaises(LimitError):
                rules.difference(other, limit=3)
            self.assertFalse(rules.same_as(other))

    def test_states_that_suffice_for_what_is_reached_alone(self):
        seen = []
        for limit in range(5000):
            try:
                found = found_in(["a/", "!a/b*c"], limit=limit)
            except LimitError:
                continue
            self.assertEqual([it.rule for it in found], [1])
            seen.append(found[0].why)
            if seen[-1] is not Dead.UNREACHED:
                break
        self.assertEqual((seen[0], seen[-1]), (Dead.UNREACHED, Dead.BY_FOLDERS))

    def test_misuse(self):
        rules, other = Rules("", ["a"]), Rules("", ["a"])
        self.assertTrue(rules.same_as(other))
        other.close()
        for call in (lambda: rules.same_as(other), lambda: other.same_as(rules),
                     lambda: other.same_as(other), other.findings, other.dead):
            with self.assertRaises(MisusedError):
                call()
        with self.assertRaises(MisusedError):
            rules.add_line("b")
        self.assertTrue(rules.same_as(rules))


class DifferenceTest(unittest.TestCase):
    def test_lists_that_say_the_same(self):
        self.assertIsNone(difference(["*.o", "!*.o"], ["!*.o"]))
        self.assertIsNone(difference(["a", "b"], ["b", "a"]))
        self.assertIsNone(difference(["a/", "!a/b"], ["a/"]))
        self.assertIsNone(difference([], ["#"]))

    def test_a_shortest_path_and_what_each_says(self):
        found = difference(["*.o"], ["*.o", "!a.o"])
        self.assertEqual(found, Difference("a.o", found.is_dir, Said(Decision.IGNORE, 0),
                                           Said(Decision.WHITELIST, 1)))
        found = difference(["x/"], ["x/", "!x/", "x/y"])
        self.assertEqual((found.path, found.is_dir), ("x", True))

    def test_a_folder_that_one_list_ignores(self):
        found = difference(["é/"], ["é/*"])
        self.assertEqual((found.path, found.is_dir), ("é", True))
        found = difference(["a/", "!a/b/c"], ["a/*", "!a/b", "a/b/*", "!a/b/c"], only_ignored=True)
        self.assertEqual((found.path, found.before.decision), ("a", Decision.IGNORE))

    def test_whether_what_is_whitelisted_counts(self):
        self.assertIsNone(difference(["!a"], [], only_ignored=True))
        found = difference(["!a"], [])
        self.assertEqual((found.path, found.before, found.after),
                         ("a", Said(Decision.WHITELIST, 0), Said(Decision.NONE, None)))


if __name__ == "__main__":
    unittest.main()
