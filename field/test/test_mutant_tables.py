"""What the reader of the tables of mutants refuses, and what of a test's failure counts."""

from __future__ import annotations

import pathlib
import tempfile
import unittest

from mutant_tables import (
    Change, Misfit, Mutant, faults_of_changes, faults_of_tests, make, read_table, read_all, statement_at)
from must_fail import Outcome, first_statement

GOOD = """
[one]
file = "kit/a.py"
old = "x = 1"
new = "x = 2"
test = "field/test/test_a.py::A::test_x"
fails = "self.assertEqual(x, 1)"

[[one.also]]
old = "x = 2"
new = "x = 3"

[[one.also]]
file = "kit/b.conf"
old = "on"
new = "off"
times = 2
"""
PACKAGE = """
[runs]
contents = ["deb/test/package"]

[two]
file = "kit/a.py"
old = "x = 1"
new = "x = 2"
test = "deb/test/package_test.py::test_a"
run = "contents"
fails = "the package is there"

[three]
file = "kit/a.py"
old = "x = 2"
new = "x = 3"
test = "deb/test/package_test.py::test_a"
run = "contents"
fails = "another is"
"""
TEST = """
class A:
    def test_x(self) -> None:
        x = f(
            "a")
        self.assertEqual(x,
                         1)
        with self.assertRaises(
                ValueError):
            f()
"""
OF_PACKAGE = 'def test_a(what):\n    assert what, f"{what} is there"\n    assert not what, "another is"\n'
STEP = 'def captured(check, guest):\n    check(f"{guest} gets no packet", True)\n'
FAILED = """
test_x (test_a.A.test_x) ... FAIL

======================================================================
FAIL: test_x (test_a.A.test_x)
----------------------------------------------------------------------
Traceback (most recent call last):
  File "{file}", line 6, in test_x
    self.assertEqual(x,
AssertionError: 2 != 1
"""


class Tables(unittest.TestCase):
    def setUp(self) -> None:
        room = tempfile.TemporaryDirectory()
        self.addCleanup(room.cleanup)
        self.top = pathlib.Path(room.name)
        for name, text in (("kit/a.py", "x = 1\n"), ("kit/b.conf", "on on\n"), ("field/test/test_a.py", TEST),
                           ("field/test/e2e.py", STEP), ("deb/test/package_test.py", OF_PACKAGE),
                           ("field/test/mutants/a.toml", GOOD),
                           ("deb/test/mutants.toml", PACKAGE)):
            (self.top / name).parent.mkdir(parents=True, exist_ok=True)
            (self.top / name).write_text(text)

    def table(self, text: str) -> list[Mutant]:
        path = self.top / "field/test/mutants/a.toml"
        path.write_text(text)
        return read_table(path).mutants

    def test_changes_are_made_in_order(self) -> None:
        mutants = read_all(self.top)
        kinds = [("one", "unit", ""), ("two", "package", "contents"), ("three", "package", "contents")]
        self.assertEqual([(it.name, it.kind, it.run) for it in mutants], kinds)
        make(mutants[0].changes, self.top)
        texts = [(self.top / name).read_text() for name in ("kit/a.py", "kit/b.conf")]
        self.assertEqual(texts, ["x = 3\n", "off off\n"])

    def test_good_tables_have_no_faults(self) -> None:
        mutants = read_all(self.top)
        self.assertEqual([*faults_of_changes(mutants, self.top), *faults_of_tests(mutants, self.top)], [])

    def test_what_can_not_be_read(self) -> None:
        for old, new in (('old = "x = 1"', 'odl = "x = 1"'), ('new = "x = 2"', 'new = "x = 1"'),
                         ("test =", "run ="),
                         ("fails =", "times ="), ("test = ", 'run = "contents"\ntest = '),
                         ('file = "kit/a.py"\n', ""), ("times = 2", "count = 2")):
            with self.subTest(new), self.assertRaises((Misfit, TypeError)):
                self.table(GOOD.replace(old, new, 1))

    def test_one_name_is_of_one_mutant(self) -> None:
        (self.top / "field/test/mutants/b.toml").write_text(GOOD)
        with self.assertRaisesRegex(Misfit, "one name for two mutants"):
            read_all(self.top)

    def test_a_run_that_nothing_is_tried_by(self) -> None:
        with self.assertRaisesRegex(Misfit, "nothing is tried by"):
            self.table(PACKAGE.replace("[runs]", "[runs]\nother = []"))

    def test_a_change_that_does_not_fit(self) -> None:
        for old, new in (("x = 1", "y = 1"), ("times = 2", "times = 1"), ("kit/b.conf", "kit/c.conf")):
            with self.subTest(new):
                faults = [*faults_of_changes(self.table(GOOD.replace(old, new)), self.top)]
                self.assertEqual([fault.partition(":")[0] for fault in faults], ["one"], faults)

    def test_mutants_of_one_run_are_made_in_one_tree(self) -> None:
        mutants = self.table(PACKAGE.replace('"x = 2"\nnew = "x = 3"', '"x = 1"\nnew = "x = 4"'))
        faults = [*faults_of_changes(mutants, self.top)]
        self.assertEqual([fault.partition(":")[0] for fault in faults], ["three"], faults)

    def test_a_test_that_is_not_there(self) -> None:
        for old, new in (("test_a.py", "test_b.py"), ("::A::", "::B::"), ("test_x", "test_y"),
                         ("(x, 1)", "(x, 2)")):
            with self.subTest(new):
                faults = [*faults_of_tests(self.table(GOOD.replace(old, new)), self.top)]
                self.assertEqual([fault.partition(":")[0] for fault in faults], ["one"], faults)

    def test_the_words_of_a_step_are_in_the_tests(self) -> None:
        for words, count in (("guest1 gets no packet", 0), ("guest1 gets one packet", 1)):
            with self.subTest(words):
                change = Change("kit/a.py", "x = 1", "x = 2", 1)
                mutant = Mutant("one", (change,), words, test="field/test/e2e.py::captured")
                self.assertEqual(len([*faults_of_tests([mutant], self.top)]), count)


class Failures(unittest.TestCase):
    def test_the_statement_that_failed_first(self) -> None:
        with tempfile.TemporaryDirectory() as room:
            path = pathlib.Path(room, "test_a.py")
            path.write_text(TEST)
            self.assertEqual([statement_at(path, line) for line in (5, 6, 7, 9, 10)],
                             ['x = f( "a")', "self.assertEqual(x, 1)", "self.assertEqual(x, 1)",
                              "with self.assertRaises( ValueError):", "f()"])
            self.assertEqual(first_statement(FAILED.format(file=path), "test_x"), "self.assertEqual(x, 1)")
            self.assertEqual(first_statement(FAILED.format(file=path), "test_y"), "")

    def test_another_failure_refuses_nothing(self) -> None:
        mutant = Mutant("one", (), "the gate is shut", test="field/test/e2e.py::closed")
        self.assertTrue(Outcome(failed=("the gate is shut within a poll", "more")).refuses(mutant))
        self.assertFalse(Outcome(failed=("the gate is open",)).refuses(mutant))
        self.assertFalse(Outcome(ended=True).refuses(mutant))

    def test_the_kit_as_it_is_passes(self) -> None:
        for outcome, good in ((Outcome(ended=True), True), (Outcome(), False), (Outcome(("the gate is shut",), True), False)):
            with self.subTest(outcome):
                self.assertEqual(outcome.passes(), good)


if __name__ == "__main__":
    unittest.main()
