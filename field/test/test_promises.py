"""promises.toml against the mutants of the kit, and against the parts of docs/PROMISES.md."""

from __future__ import annotations

import contextlib
import io
import re
import unittest

import promises
from desk_process import FIELD
from mutant_tables import read_all


class Promises(unittest.TestCase):
    def test_each_promise_has_a_mutant_and_each_mutant_a_promise(self) -> None:
        found = promises.read_promises()
        self.assertEqual([it.text for it in found if not it.mutants], [], "a promise without a mutant")
        named = [name for it in found for name in it.mutants]
        self.assertEqual(sorted(named), sorted(mutant.name for mutant in read_all() if not mutant.run))

    def test_the_page_has_the_parts_of_the_list(self) -> None:
        page, mark, others = (FIELD / "docs/PROMISES.md").read_text().partition("\n## What is not promised\n")
        self.assertTrue(mark and "\n|---|---|\n" in others)
        parts = re.findall(r"^- \*\*(.+?)\*\*: \S", page, re.M)
        self.assertEqual(parts, list(dict.fromkeys(it.part for it in promises.read_promises())))

    def test_the_command_prints_a_promise_with_its_test(self) -> None:
        with contextlib.redirect_stdout(io.StringIO()) as printed:
            self.assertEqual(promises.main("drill"), 0)
        self.assertRegex(printed.getvalue(), r"(?m)^Copies\n  A drill .*\n    field/test/\S+::\S+ \(a_drill_in_another_zone\)$")
        with contextlib.redirect_stdout(io.StringIO()):
            self.assertEqual(promises.main("what nobody promises"), 1)


if __name__ == "__main__":
    unittest.main()
