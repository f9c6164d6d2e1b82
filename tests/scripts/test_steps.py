"""Tries the table of ./test and what its steps read: names, words, imports, crates, digests; and the table of this repository."""

from __future__ import annotations

import re
import subprocess
import unittest

from portal_runner.inputs import Repository, Unknown
from portal_runner.steps import BadTable, Table
from small_steps import STEPS, SmallSteps
from small_tree import TOP


class Reading(SmallSteps):
    def test_a_step_for_each_file(self) -> None:
        table = self.table()
        self.assertEqual([it.name for it in table.steps], ["quick", "each:test_other", "each:test_page", "last"])
        step = table.by_name["each:test_page"]
        self.assertEqual(step.command(), ["tests/each", "test_page"])
        self.assertEqual(step.command("One::test_a"), ["tests/each", "test_page::One::test_a"])
        self.assertEqual(table.by_name["last"].command("a b"), ["tests/last", "--only", "a", "b"])
        self.assertRaises(BadTable, table.by_name["quick"].command, "test_a")

    def test_groups_and_names(self) -> None:
        table = self.table()
        self.assertEqual([it.name for it in table.of_group("first")], ["quick"])
        self.assertEqual([it.name for it in table.of_group("field")], ["quick", "each:test_other", "each:test_page"])
        self.assertEqual(len(table.of_group("all")), 4)
        self.assertEqual([it.name for it in table.named("each")], ["each:test_other", "each:test_page"])
        self.assertEqual([it.name for it in table.named("test_page")], ["each:test_page"])
        self.assertRaisesRegex(BadTable, "no part is called nothing; there are: quick, each, last", table.named, "nothing")
        for word, near in (("lsat", "last"), ("test_pag", "test_page"), ("each:test_oter", "each:test_other")):
            self.assertRaisesRegex(BadTable, rf"no part is called {word} \(did you mean {near}\?\); there are: quick", table.named, word)

    def test_what_a_table_may_not_say(self) -> None:
        for old, new, words in (
            ('when = "first"', 'when = "later"', "quick"), ('part = "quick"', 'part = "quick"\nwhat = 1', "what"),
            ('part = "quick"', 'part = "last"', "a name stands twice"), ('"test_off"', '"test_none"', "each: there is no test_none"),
            ('but = ["test_off"]', 'sampled = ["none"]', "each: there is no none"),
        ):
            self.write("tests/steps.toml", STEPS.replace(old, new))
            self.assertRaisesRegex(BadTable, words, self.table)
        for old, new in (('"@both"', '"none"'), ('"@both"', '"kit/none*"'), ('"@both"', '"shape one"'), ('"@both"', '"crate none"')):
            self.write("tests/steps.toml", STEPS.replace(old, new))
            table = self.table()
            self.assertRaises(BadTable, table.files_of, table.by_name["quick"])

    def test_budgets(self) -> None:
        table = self.table()
        self.assertEqual((table.by_name["quick"].budget, table.by_name["last"].budget, table.budgets["machine"]), (1.0, 60.0, 100.0))

    def test_what_was_changed(self) -> None:
        for paths, wanted in (({"two"}, ["quick"]), ({"one"}, ["quick", "last"]), ({"kit/words.py"}, ["each:test_page"]), ({"README"}, []),
                              ({"three"}, ["last"]), ({"kit/page.html", "two"}, ["quick", "each:test_page"])):
            self.assertEqual([it.name for it in self.table().changed(paths)], wanted, paths)
        self.write("tests/steps.toml", STEPS.replace('"@both"', '"@both", "kit/*.txt", "!kit/data.txt"'))
        self.assertEqual([it.name for it in self.table().changed({"kit/gone.txt"})], ["quick"], "a file that is gone")
        self.write("tests/steps.toml", STEPS.replace('carries = ["three"]', 'needs = ["program"]'))
        for path in ("dist/portal.gz", "crates/low/src/lib.rt"):
            self.assertEqual([it.name for it in self.table().changed({path})], ["last"], "it runs the program")


class Files(SmallSteps):
    def files(self, *words: str) -> list[str]:
        return sorted(Repository(self.tree).files_of(words))

    def test_globs(self) -> None:
        self.assertEqual(self.files("kit/*.html", "one"), ["kit/page.html", "one"])
        self.assertEqual(self.files("kit/**", "!kit/*.py"), ["kit/data.txt", "kit/page.html"])
        self.assertIn("field/test/needs.py", self.files("**/needs.py"))
        self.assertIn("one", self.files("**"))
        self.assertRaises(Unknown, self.files, "kit/*/page.html")

    def test_without_git_what_was_built_is_none_of_them(self) -> None:
        self.write("out/portal", "")
        self.write("kit/__pycache__/page.pyc", "")
        self.assertFalse({"out/portal", "kit/__pycache__/page.pyc"} & set(self.files("**")))

    def test_with_git_what_it_ignores_is_none_of_them(self) -> None:
        subprocess.run(["git", "init", "-q", str(self.tree)], check=True)
        self.write(".gitignore", "kit/page.*\n")
        self.assertEqual(self.files("kit/*"), ["kit/data.txt", *(f"kit/{it}.py" for it in ("test_off", "test_other", "test_page", "words"))])

    def test_imports(self) -> None:
        """Also those within a function, and a file that is named in a text; and what [[reads]] adds to them."""
        repository = self.table().repository
        wanted = {"kit/test_page.py", "kit/page.py", "kit/words.py", "kit/data.txt", "kit/page.html"}
        self.assertEqual(repository.files_of(["imports kit/test_page.py"]), wanted)
        self.assertEqual(repository.files_of(["imports kit/test_other.py"]), {"kit/test_other.py"})

    def test_names_in_texts(self) -> None:
        self.write("field/parts/words.py", "")
        for text, wanted in (
            ("x = KIT / 'kit' / 'data.txt'", {"kit/data.txt"}), ("x = f'{KIT}/kit/{name}.txt'", {"kit/data.txt"}), ("x = 'tests'", set()),
            ("x = f'{KIT}/kit/page.py --help'", {"kit/page.py", "kit/words.py", "kit/page.html"}), ('"""See kit/data.txt"""', set()),
            ("x = TOP / 'tests/out'", set()), ("x = 'python3 -m parts.words'", {"field/parts/words.py"}), ("x = 'kit/*.txt'", set()),
        ):
            self.write("tests/scripts/a.py", text)
            self.assertEqual(self.table().repository.files_of(["imports tests/scripts/a.py"]) - {"tests/scripts/a.py"}, wanted, text)

    def test_packages_of_python(self) -> None:
        self.write("field/parts/__init__.py", "")
        self.write("field/parts/page.py", "from . import words\nfrom .words import say\n")
        self.write("field/parts/words.py", "")
        self.write("kit/test_page.py", "from parts import page\n")
        wanted = ["field/parts/__init__.py", "field/parts/page.py", "field/parts/words.py", "kit/test_page.py"]
        self.assertEqual(self.files("imports kit/test_page.py"), wanted)

    def test_crates(self) -> None:
        self.write("crates.txt", "# a comment\nlow: std\nhigh: low # another\nother: low\n")
        for name in ("low", "high", "other"):
            for file in ("src/lib.rt", "must-fail/one.edit", "must-fail-more/two.edit"):
                self.write(f"crates/{name}/{file}", "")
        self.assertEqual(self.files("crate high"), ["crates/high/src/lib.rt", "crates/low/src/lib.rt"])
        repository = Repository(self.tree)
        self.assertEqual(repository.lines_of_crates(["crate high"]), "low: std\nhigh: low # another\n")
        self.assertEqual(repository.lines_of_crates(["one"]), "")

    def test_mutants(self) -> None:
        self.write("kit/table.toml", '[one]\nfile = "two"\ntest = "kit/test_page.py::One::test_a"\n[[one.also]]\nfile = "three"\n[runs]\na = "b"\n')
        wanted = ["kit/data.txt", "kit/page.py", "kit/table.toml", "kit/test_page.py", "kit/words.py", "three", "two"]
        self.assertEqual(self.files("mutants kit/table.toml"), wanted)


class Digests(SmallSteps):
    def digest(self, name: str = "quick", facts: tuple[str, ...] = (), is_whole: bool = True) -> str:
        table = self.table()
        return table.digest(table.by_name[name], list(facts), is_whole)

    def test_what_belongs_to_it(self) -> None:
        before = self.digest()
        self.assertEqual(before, self.digest())
        self.assertNotEqual(before, self.digest(facts=("root",)))
        self.write("kit/words.py", "x = 1\n")
        self.assertEqual(before, self.digest(), "no input")
        for name, text in (("two", "another\n"), ("tests/quick", "another\n")):
            self.write(name, text)
            self.assertNotEqual(before, self.digest(), name)
            before = self.digest()
        (self.tree / "two").chmod(0o755)
        self.assertNotEqual(before, self.digest(), "it is a program now")
        before = self.digest()
        self.write("tests/steps.toml", STEPS.replace('run = "tests/quick"', 'run = "tests/quick --more"'))
        self.assertNotEqual(before, self.digest(), "another command")

    def test_a_name_belongs_to_it(self) -> None:
        self.write("tests/steps.toml", STEPS.replace('"@both"', '"kit/*.txt"'))
        before = self.digest()
        (self.tree / "kit/data.txt").rename(self.tree / "kit/other.txt")
        self.assertNotEqual(before, self.digest())

    def test_what_is_carried(self) -> None:
        before = self.digest("last"), self.digest("last", is_whole=False)
        self.write("three", "another\n")
        after = self.digest("last"), self.digest("last", is_whole=False)
        self.assertNotEqual(before[0], after[0])
        self.assertEqual(before[1], after[1])


class OfThisRepository(unittest.TestCase):
    """tests/steps.toml as it is."""

    table: Table

    @classmethod
    def setUpClass(cls) -> None:
        cls.table = Table(Repository(TOP))

    def test_one_byte_altered_in_an_input_runs_the_step(self) -> None:
        for step in self.table.steps:
            carried, before = self.table.carried_by(step), self.table.digest(step, [], is_whole=False)
            files = sorted(self.table.files_of(step))
            self.assertGreater(set(files), carried, step.name)
            for name in files[:: max(1, len(files) // 12)]:
                after = self.table.digest(step, [], is_whole=False, change=(name, "another"))
                self.assertEqual(after == before, name in carried, f"{step.name}: {name}")

    def test_what_a_step_runs_is_an_input_of_it(self) -> None:
        for step in self.table.steps:
            self.assertIn(step.run[0], self.table.files_of(step), step.name)

    def test_each_has_a_budget_and_each_budget_a_step(self) -> None:
        self.assertEqual(sorted(self.table.budgets), sorted([*self.table.by_name, "machine"]))

    def test_the_first_test_takes_a_minute_and_that_of_the_kit_four(self) -> None:
        def seconds(group: str) -> float:
            return sum(it.budget for it in self.table.steps if it.group == group)

        self.assertLessEqual(seconds("first"), 75)
        self.assertLessEqual(seconds("field"), 300)

    def test_what_runs_without_python_and_what_does_not(self) -> None:
        text = (TOP / "test").read_text()
        ran, left_out = re.findall(r"run_step (\S+) ", text), re.search(r"not run, as .* path: (.*)\"", text)
        assert left_out
        self.assertEqual({*ran, *left_out[1].split(", ")}, {it.part for it in self.table.of_group("first")})

    def test_each_file_of_tests_is_in_a_step(self) -> None:
        inputs = {name for step in self.table.steps for name in self.table.files_of(step) if step.part != "documents"}
        for glob in ("field/test/*test*.py", "field/test/e2e*.py", "field/radius/test/test_*.py", "field/test/mutants/*.toml", "tests/cases/*.txt",
                     "tests/scripts/test_*.py", "deb/test/booted/*_test.py", "crates/*/must-fail/*.edit"):
            self.assertEqual(self.table.repository.matching(glob) - inputs, frozenset(), glob)

    def test_each_crate_is_proved_and_its_mutants_are_tried(self) -> None:
        repository = self.table.repository
        mutated = {it.split("/")[1] for it in repository.matching("crates/*/must-fail/*.edit")}
        self.assertEqual({it.name for it in self.table.named("prove")}, {f"prove:{it}" for it in repository.uses})
        self.assertEqual({it.name for it in self.table.named("edits")}, {f"edits:{it}" for it in mutated})

    def test_each_table_of_mutants_is_tried_as_each_kind(self) -> None:
        repository = self.table.repository
        names = {it.rpartition("/")[2].removesuffix(".toml") for it in repository.matching("field/test/mutants/*.toml")}
        texts = {name: (TOP / f"field/test/mutants/{name}.toml").read_text() for name in names}
        of_radius = {name for name in names if 'test = "field/radius' in texts[name]}
        others = {name for name in names if 'test = "field/test' in texts[name]}
        self.assertEqual({it.name for it in self.table.named("radius-mutants")}, {f"radius-mutants:{it}" for it in of_radius})
        self.assertEqual({it.name for it in self.table.named("mutants")}, {f"mutants:{it}" for it in others})


if __name__ == "__main__":
    unittest.main()
