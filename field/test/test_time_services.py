"""A time service that may be wrong: how far it is believed, by itself and over a server that runs."""

from __future__ import annotations

import contextlib
import os
import subprocess
import sys
import unittest
from unittest import mock

from desk_process import FIELD, PLANS, PORTAL, SETTINGS, Desk, NoAnswer, Routes, free_port

from needs import FILES, needs
from steady import wait_until
from test_server import DAY, NOW, WORD, Folder

from portal_field.lib import machine_time
from portal_field.server import right_time as clock
from portal_field.server.accepted_steps import read_record


class Services(Folder):
    """A time service that may be wrong, or another machine that answers in its place."""

    def setUp(self) -> None:
        super().setUp()
        self.is_synchronised = True

    def verdict(self, believed: str = "kernel") -> clock.Verdict:
        return self.clock(believed).judge()

    def test_it_is_believed_near_the_last_entry_alone(self) -> None:
        self.holds(NOW)
        for seconds, right in ((0, True), (-60, True), (-61, False), (-DAY, False), (-NOW, False), (6 * DAY, True),
                               (7 * DAY, True), (7 * DAY + 1, False), (8 * DAY, False), (3650 * DAY, False)):
            self.time = NOW + seconds
            self.notes.drop("found")
            (self.folder / "steps.json").unlink(missing_ok=True)
            verdict = self.verdict()
            self.assertEqual((verdict.right, verdict.last), (right, NOW), seconds)
            if not right:
                words = "more than a minute before" if seconds < 0 else "more than seven days after"
                self.assertEqual(verdict.why, f"a time service keeps the clock, but it is {words} the database's last entry")

    def test_without_an_entry_it_is_believed_and_where_none_can_be_read_it_is_not(self) -> None:
        self.assertTrue(self.verdict().right)
        self.database.write_bytes(b"x" * 8192)
        self.notes.drop("found")
        verdict = self.verdict()
        self.assertEqual((verdict.right, "cannot be read" in verdict.why), (False, True))

    def test_twice_six_days_within_a_month_wait_for_a_clerk(self) -> None:
        base = self.holds(NOW)
        self.assertTrue(self.verdict().right)
        for step, right in ((6 * DAY, True), (6 * DAY, False)):
            self.time += step
            verdict = self.verdict()
            self.assertEqual(verdict.right, right, verdict)
            base.execute("UPDATE portal_head SET last_moment = ?", (int(self.time),))     # a guest comes
        self.assertIn("moved the clock forward by 12.0 days within 30 days, and more than 7", verdict.why)
        self.notes.write(WORD, origin=self.time - self.uptime, who="a clerk")
        self.assertTrue(self.verdict().right)
        self.assertTrue(self.verdict().right, "and it goes on")
        self.time += 6 * DAY
        self.assertTrue(self.verdict().right, "what was before the word does not count any more")

    def test_after_thirty_days_a_step_does_not_count_and_those_days_are_real_ones(self) -> None:
        base = self.holds(NOW)
        self.verdict()
        for days, step, right in ((0, 3, True), (1, 3, True), (27, 4, False), (2, 4, True)):
            self.passes(days * DAY)
            base.execute("UPDATE portal_head SET last_moment = ?", (int(self.time),))
            self.time += step * DAY
            self.assertEqual(self.verdict().right, right, days)
            self.time -= 0 if right else step * DAY
            self.verdict()

    def test_many_small_steps_of_a_running_server_are_counted(self) -> None:
        """Each is too small to end the server."""
        self.enterContext(mock.patch("portal_field.server.accepted_steps.MOST", 3600))
        self.holds(NOW)
        one = self.clock()
        self.assertTrue(one.judge().right)
        steps = 0
        while not one.was_set() and steps < 99:
            self.time += 59
            steps += 1
        self.assertEqual(steps, 3600 // 59 + 1)
        self.assertFalse(one.judge().right)
        self.assertFalse(self.verdict().right, "nor does another server start")

    def test_the_hours_that_really_pass_do_not_count(self) -> None:
        base, one = self.holds(NOW), self.clock()
        one.judge()
        for hour in range(20 * 24):
            self.passes(3600)
            self.time += (0.3, -0.2, -0.1)[hour % 3]        # a service corrects the clock
            self.assertFalse(one.was_set())
        base.execute("UPDATE portal_head SET last_moment = ?", (int(self.time),))
        self.time += 6 * DAY
        self.assertEqual((one.was_set(), one.judge().right), (True, True))

    def test_a_quiet_week_of_a_machine_that_runs_is_no_closed_week(self) -> None:
        self.holds(NOW)
        one = self.clock()
        one.judge()
        for _ in range(10 * 24):
            self.passes(3600)
            one.was_set()
        self.boots(120)
        self.assertTrue(self.verdict().right)

    def test_nights_that_the_machine_is_off_count_where_nothing_tells_their_length(self) -> None:
        """The clock that the machine keeps shows it, where it is seen before the service has set it."""
        for is_seen, nights in ((True, 40), (False, 15)):
            with self.subTest(is_seen=is_seen):
                (self.folder / "steps.json").unlink(missing_ok=True)
                self.notes.drop("found")
                self.database.unlink(missing_ok=True)
                base = self.holds(int(self.time))
                self.assertTrue(self.verdict().right)
                for night in range(1, 41):
                    self.passes(12 * 3600)
                    base.execute("UPDATE portal_head SET last_moment = ?", (int(self.time),))
                    self.verdict()
                    self.is_synchronised = not is_seen
                    self.boots(12 * 3600)
                    self.verdict()
                    self.is_synchronised = True
                    self.passes(5)
                    if not self.verdict().right:
                        break
                base.close()
                self.assertEqual(night, nights)

    def test_what_a_service_wrote_into_the_machines_own_clock_is_no_time_that_passed(self) -> None:
        """The server waits, and somebody boots the machine: its own clock has the wrong time by then."""
        base = self.holds(NOW)
        self.verdict()
        self.time += 6 * DAY
        self.assertTrue(self.verdict().right)
        base.execute("UPDATE portal_head SET last_moment = ?", (int(self.time),))
        self.time += 6 * DAY
        self.assertFalse(self.verdict().right)
        self.is_synchronised = False
        self.boots(60)
        self.assertFalse(self.verdict().right)
        self.is_synchronised = True
        self.assertFalse(self.verdict().right)

    def test_a_clock_without_a_battery_counts_from_what_was_right_last(self) -> None:
        self.holds(NOW)
        self.verdict()
        right = self.time + 3600
        self.is_synchronised = False
        self.boots(0, 0.0)
        self.assertFalse(self.verdict().right)
        self.is_synchronised, self.time = True, right
        self.assertTrue(self.verdict().right)
        self.assertAlmostEqual(read_record(self.folder / "steps.json").sum_of_moves(), 3570, delta=2)

    def test_a_service_that_is_gone_for_a_moment_is_a_service(self) -> None:
        """As just after a step: then the clock is within a day after the last entry, each time."""
        base = self.holds(NOW)
        self.verdict()
        for _ in range(9):
            self.is_synchronised = False
            self.time += 0.9 * DAY
            right = self.verdict().right
            base.execute("UPDATE portal_head SET last_moment = ?", (int(self.time),))
        self.assertFalse(right)

    def test_without_any_service_all_is_as_it_was(self) -> None:
        base, self.is_synchronised = self.holds(NOW), False
        for _ in range(9):
            self.time += 0.9 * DAY
            self.assertTrue(self.verdict().right)
            base.execute("UPDATE portal_head SET last_moment = ?", (int(self.time),))

    def test_a_file_that_does_not_read_is_none(self) -> None:
        self.holds(NOW)
        for text in ("", "[]", '{"x": 1}', "{"):
            (self.folder / "steps.json").write_text(text)
            self.assertTrue(self.verdict().right, text)


SHIM = """
import ctypes


class Kernel(ctypes.CDLL):
    def adjtimex(self, words):
        words[3] = 5
        return 0


ctypes.CDLL = Kernel
"""


@needs("faketime")
class Faked(Folder):
    """The program as a venue starts it, over a database with entries of now. The clock is libfaketime's, and the kernel says
    that a time service keeps it."""

    def setUp(self) -> None:
        super().setUp()
        (self.folder / "settings.toml").write_text(SETTINGS)
        (self.folder / "server.toml").write_text('clock = "kernel"\nzone = "UTC0"\n')
        (self.folder / "sitecustomize.py").write_text(SHIM)
        self.offset, self.state = self.folder / "offset", self.folder / "clock-steps.json"
        self.port = free_port()
        self.job: subprocess.Popen[bytes] | None = None
        self.starts("+0")
        self.assertTrue(wait_until(self.serves, 60))
        Desk(self.port, "desk-token").request_json(Routes.PLANS, body=PLANS)

    def starts(self, offset: str) -> None:
        """At another time than the one before, as after a boot: no note is there."""
        self.ends()
        for name in ("found", "state", "word"):
            self.notes.drop(name)
        self.offset.write_text(offset + "\n")
        env = {**os.environ, "FIELD_SETTINGS": str(self.folder / "server.toml"), "LD_PRELOAD": FILES["faketime"],
               "FAKETIME_TIMESTAMP_FILE": str(self.offset), "FAKETIME_NO_CACHE": "1", "DONT_FAKE_MONOTONIC": "1",
               "FAKETIME_DONT_FAKE_MONOTONIC": "1", "NO_FAKE_STAT": "1", "PYTHONPATH": f"{self.folder}:{FIELD}"}
        words = [sys.executable, "-m", "portal_field.server.parent", "--portal", PORTAL, "--port", self.port, "--db",
                 self.folder / "book.db", "--settings", self.folder / "settings.toml", "--notes", self.folder]
        self.job = subprocess.Popen([str(word) for word in words], stderr=subprocess.DEVNULL, env=env)
        self.addCleanup(self.ends)

    def ends(self) -> None:
        if self.job:
            self.job.terminate()
            self.job.wait(60)
            self.job = None

    def serves(self) -> bool:
        with contextlib.suppress(NoAnswer):
            Desk(self.port, "gate-token", 1.0).request_json(Routes.SESSIONS)
            return True
        return False

    def waits(self) -> bool:
        return self.notes.read("state").get("is") == "waits"

    def comes(self, serves: bool) -> str:
        """Whether it serves or waits, and the reason that the counter's page shows."""
        self.assertTrue(wait_until(lambda: self.serves() or self.waits(), 60))
        self.assertEqual((self.serves(), self.waits()), (serves, not serves), self.notes.read("state"))
        return str(self.notes.read("state").get("why", ""))

    def test_a_time_that_a_service_forged_waits_for_a_clerk(self) -> None:
        before = self.state.read_bytes()
        for offset, words in (("+3650d", "more than seven days after"), ("-1d", "more than a minute before"),
                              ("-19900d", "more than a minute before"), ("+8d", "more than seven days after")):
            self.starts(offset)
            self.assertIn(words, self.comes(serves=False), offset)
            self.state.write_bytes(before)

    def test_twice_six_days_wait_and_a_clerks_word_goes_on(self) -> None:
        self.starts("+6d")
        self.comes(serves=True)
        Desk(self.port, "desk-token").request_json(Routes.ISSUE, body={"batch": "b1", "plan": "hour", "count": 1})
        self.starts("+12d")
        self.assertIn("by 12.0 days within 30 days", self.comes(serves=False))
        self.notes.write(WORD, origin=machine_time.origin() + 12 * DAY, who="a clerk")
        self.assertTrue(wait_until(self.serves, 60))
        self.offset.write_text("+0\n")
        self.assertTrue(wait_until(self.waits, 30), "set while it runs")
        self.assertIn("more than a minute before", self.comes(serves=False))


if __name__ == "__main__":
    unittest.main()
