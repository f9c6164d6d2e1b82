"""Tries how ./test reads what a step printed: counts, failures, what was passed over, and whether its reason is so."""

from __future__ import annotations

import unittest

from portal_runner.results import Counts, Reasons, Result, counts_of, result_of, slowest
from small_tree import TOP


class Reading(unittest.TestCase):
    def test_counts(self) -> None:
        for text, status, wanted in (
            ("outside: 3 passed, 0 failed\n", 0, (3, 0)),
            ("3 passed, 0 failed", 0, (3, 0)),
            ("3 passed, 2 failed\n", 1, (3, 2)),
            ("3 passed, 2 failed\n", 0, (3, 2)),
            ("3 passed, 0 failed\n", 1, (3, 1)),
            ("3 passed, 0 failed\n\n", 0, (0, 1)),
            ("3 passed, 0 failed\nmore\n", 0, (0, 1)),
            ("3 passed, 0 failed, 2 s\n", 0, (0, 1)),
            ("all is well\n", 0, (0, 1)),
            ("", 0, (0, 1)),
            ("passed over: field: not installed: one\n", 0, (0, 1)),
        ):
            self.assertEqual(counts_of(text, status), Counts(*wanted), text)

    def test_failures(self) -> None:
        lines = ["ok   a  [1.0 s]", "note x", "", "==== slowest 3 durations", "1.25s call     x", "(3 durations < 1s hidden)", "FAIL b", "note", "okay"]
        self.assertEqual(result_of("\n".join(lines), 1).failures(), ["FAIL b", "note", "okay"])

    def test_notes(self) -> None:
        text = "note a time: no [9]: once more\nnote something else\n note a: once more\n1 passed, 0 failed\n"
        self.assertEqual(result_of(text, 0).notes(), ["a time: no [9]: once more"])

    def test_failed_lines(self) -> None:
        text = "\n".join([f"FAIL {it} {'x' * 400}" for it in range(20)] + ["ok   FAIL", "ERROR"])
        lines = result_of(text, 1).failed_lines()
        self.assertEqual((len(lines), {len(it) for it in lines}), (10, {300}))
        self.assertEqual(result_of("fine\nERROR: one\nok   FAIL\n", 1).failed_lines(), ["ERROR: one"])

    def test_passed_over(self) -> None:
        good = "passed over: one: why\npassed over: two: why\n"
        for text, wanted in (
            (f"{good}2 passed, 0 failed\n", ["one: why", "two: why"]),
            (f"{good}and more\n2 passed, 0 failed\n", []),
            (f"passed over: x: y\nmore\n{good}2 passed, 0 failed\n", ["one: why", "two: why"]),
            (f" {good}2 passed, 0 failed\n", ["two: why"]),
            ("setup: passed over: one: why\n2 passed, 0 failed\n", []),
            ("- passed over: one: why\n2 passed, 0 failed\n", []),
            (good, []),
            ("", []),
        ):
            self.assertEqual(result_of(text, 0).passed_over(), wanted, text)

    def test_slowest(self) -> None:
        text = "ok   a::b  [2.5 s]\nok   a::c  [31.0 s]\nok   d [1 s]\nok   e f  [9 s]\n"
        self.assertEqual(slowest([result_of(text, 0), Result("ok   z  [7 s]")]), ["a::c, 31.0 s", "z, 7 s", "a::b, 2.5 s"])
        self.assertEqual(len(slowest([Result("\n".join(f"ok   t{it}  [{it} s]" for it in range(30)))])), 10)


class FakeReasons(Reasons):
    is_a_user = lacks = False

    def is_root(self) -> bool:
        return not self.is_a_user

    def has_package(self, name: str) -> bool:
        return name == "bash"

    def lacks_packets(self) -> bool:
        return self.lacks

    def succeeds(self, *words: str) -> bool:
        return not self.lacks


class OfSkips(unittest.TestCase):
    def setUp(self) -> None:
        self.reasons = FakeReasons(TOP)

    def test_packages(self) -> None:
        self.assertTrue(self.reasons.holds("one: not installed: no-such-package"))
        self.assertTrue(self.reasons.holds("one: not installed: bash, no-such-package"), "one of several is missing")
        self.assertFalse(self.reasons.holds("one: not installed: bash"))

    def test_no_reason(self) -> None:
        for line in ("one: for no reason", "one", "it needs root", "one: it needs root or more", ""):
            self.assertFalse(self.reasons.holds(line), line)

    def test_others(self) -> None:
        reasons = ("it needs network namespaces", "it needs network namespaces with nftables",
                   "it needs the commit of version 1.0.0 in the history of git", "it needs ptrace")
        for reason in reasons:
            self.reasons.lacks = True
            self.assertTrue(self.reasons.holds(f"one: {reason}"), reason)
            self.reasons.lacks = False
            self.assertFalse(self.reasons.holds(f"one: {reason}"), reason)
        self.assertFalse(self.reasons.holds("one: it needs root"))
        self.reasons.is_a_user = True
        self.assertTrue(self.reasons.holds("one: it needs root"))

    def test_this_machine(self) -> None:
        """The real one answers, whatever it is."""
        reasons = Reasons(TOP)
        self.assertFalse(reasons.has_package("no-such-package"))
        self.assertFalse(reasons.succeeds("no-such-command"))
        self.assertFalse(reasons.succeeds("false"))
        self.assertTrue(reasons.succeeds("true"))


if __name__ == "__main__":
    unittest.main()
