"""Checks of times, on a calm machine and on one that other work holds up."""

from __future__ import annotations

import contextlib
import io
import os
import pathlib
import tempfile
import unittest
from typing import Any
from unittest import mock

import steady


class Times(unittest.TestCase):
    def setUp(self) -> None:
        self.now = 0.0
        self.enterContext(mock.patch("time.monotonic", lambda: self.now))

    def busy(self, part: float) -> None:
        """For this part of the time something waits for a processor."""
        self.enterContext(mock.patch.object(steady, "seconds_waited", lambda: part * self.now))

    def outcome_of(self, *answers: Any) -> tuple[str, int, str]:
        """What fails, how often it was measured, and what is printed."""
        left, fault = list(answers), ""

        def measure() -> tuple[bool, Any]:
            self.now += 1
            answer = left.pop(0)
            if isinstance(answer, Exception):
                raise answer
            is_good, time_seen = answer
            return is_good, time_seen

        with contextlib.redirect_stdout(io.StringIO()) as printed:
            try:
                steady.assert_measured("a time", measure)
            except AssertionError as failed:
                fault = str(failed)
        return fault, len(answers) - len(left), printed.getvalue()

    def test_what_fails_on_a_calm_machine_has_failed(self) -> None:
        self.busy(steady.BUSY / 5)
        self.assertEqual(self.outcome_of((False, 9), (True, 1)), ("a time  [9]", 1, ""))

    def test_on_a_machine_that_is_held_up_in_part_it_is_measured_anew(self) -> None:
        self.busy(steady.BUSY / 3)
        self.assertEqual(self.outcome_of((False, 9), (True, 1))[:2], ("", 2))

    def test_on_a_busy_machine_it_is_measured_anew_and_that_is_printed(self) -> None:
        self.busy(0.95)
        fault, count, printed = self.outcome_of((False, 9), (False, 8), (True, 1))
        self.assertEqual((fault, count), ("", 3))
        self.assertRegex(printed, r"note a time: no \[9\].* 95% .*: once more\nnote a time: no \[8\].*: once more\n"
                                  r"note a time  \[1\]\n$")

    def test_the_fourth_counts(self) -> None:
        self.busy(0.95)
        fault, count, printed = self.outcome_of(*((False, i) for i in range(9)))
        self.assertEqual((fault, count, printed.count("once more")), ("a time  [3]", 4, 3))

    def test_where_it_cannot_be_measured_anew_it_has_failed(self) -> None:
        self.busy(0.95)
        self.assertEqual(self.outcome_of((False, 9), TimeoutError("in vain"))[0], "a time  [9; then in vain]")
        with self.assertRaises(TimeoutError):
            self.outcome_of(TimeoutError("in vain"))

    def test_a_time_that_was_taken_may_be_longer_on_a_busy_machine(self) -> None:
        half = 10 * (1 + steady.MOST_TIMES) / 2
        for part, most in ((0.0, 10), (steady.BUSY / 2, half), (0.95, 10 * steady.MOST_TIMES)):
            self.busy(part)
            span = steady.Span()
            self.now += 50
            self.assertEqual([span.allows(most, 10), span.allows(most + 1, 10)], [True, False])

    def test_a_wait_is_longer_on_a_busy_machine_and_has_an_end(self) -> None:
        for part, seconds, is_over in ((0.0, 9, False), (0.0, 11, True), (steady.BUSY / 2, 24, False),
                                       (steady.BUSY / 2, 26, True), (0.95, 11, False), (0.95, 39, False), (0.95, 41, True)):
            self.now = 100.0
            self.busy(part)
            span = steady.Span()
            self.now += seconds
            self.assertEqual(span.over(10), is_over, (part, seconds))

    def test_a_wait_ends_with_its_time(self) -> None:
        self.busy(0.0)

        def true() -> bool:
            self.now += 0.3
            return self.now > goal

        for goal, good in ((0.5, True), (99.0, False)):
            self.now = 0.0
            self.assertEqual(steady.wait_until(true, 1.0), good)

    def test_a_processor_that_others_have_is_waited_for(self) -> None:
        with tempfile.TemporaryDirectory() as folder:
            one, other = pathlib.Path(folder, "pressure"), pathlib.Path(folder, "stat")
            one.write_text("some avg10=0.00 avg60=0.00 avg300=0.00 total=2000000\n")
            ticks = os.sysconf("SC_CLK_TCK")
            other.write_text(f"cpu  1 2 3 4 5 6 7 {3 * ticks} 8 9\ncpu0 1 2 3 4 5 6 7 8 9 10\n")
            with mock.patch.multiple(steady, PRESSURE=one, PROCESSORS=other):
                self.assertEqual(steady.seconds_waited(), 2 + 3)

    def test_the_kernel_keeps_an_account(self) -> None:
        before = steady.seconds_waited()
        self.assertTrue(0 <= before <= steady.seconds_waited())
        with mock.patch.object(steady, "PRESSURE", steady.PRESSURE / "not"):
            self.assertGreater(steady.seconds_waited(), 0)


if __name__ == "__main__":
    unittest.main()
