"""The agent's decisions, with a desk and a gate in memory."""

from __future__ import annotations

import contextlib
import io
import itertools
import json
import pathlib
import socket
import sys
import tempfile
import time
import unittest
from collections.abc import Callable, Iterable
from typing import Any, cast
from unittest import mock

from desk_process import Desk, NoAnswer, Refused, Routes

from portal_field.gateway import agent as agent_program
from portal_field.gateway.agent import Agent
from portal_field.gateway.passing import NotReady, Passing, RulesAreGone

A, B = "02:00:00:00:00:0a", "02:00:00:00:00:0b"


class MemoryDesk:
    def __init__(self) -> None:
        self.open: dict[int, str] = {}
        self.used: dict[int, int] = {}
        self.allowance: dict[int, int] = {}
        self.asked: list[tuple[int, int]] = []
        self.fault: Exception | None = None
        self.deaf = False
        self.seconds: dict[int, int] = {}       # that are left
        self.more: list[str] = []       # what else a request carried
        self.work: Callable[[], None] = lambda: None    # what a report costs

    def request_json(self, route: Routes, body: dict[str, int] | None = None, **more: str) -> dict[str, Any]:
        self.more += more
        if route is Routes.SESSIONS:
            return self.sessions()
        assert body
        if self.deaf:
            raise NoAnswer("deaf")
        self.work()
        number = body["session"]
        self.asked.append((number, body["bytes"]))
        self.used[number] = max(self.used.get(number, 0), body["bytes"])
        if self.used[number] >= self.allowance.get(number, 10**18):
            self.open.pop(number, None)
        return {"open": number in self.open, "session": number, "used": self.used[number]}

    def sessions(self) -> dict[str, Any]:
        if self.fault:
            raise self.fault
        rows = []
        for number, device in sorted(self.open.items()):
            left = self.allowance.get(number, 0) - self.used.get(number, 0)
            rows.append({"device": device, "session": number, **({"bytes-remaining": left} if left > 0 else {}),
                         **({"seconds-remaining": self.seconds[number]} if number in self.seconds else {})})
        return {"sessions": rows}


class MemoryGate:
    def __init__(self, clock: Callable[[], float]) -> None:
        self.clock, self.renewed_at = clock, [0.0]       # when the switch was renewed_at
        self.now: dict[str, Passing] = {}
        self.is_open = self.is_gone = self.is_barred = self.loads = self.is_empty = self.is_new = False
        self.readings = 0       # how often all of it was read
        self.closed_for = 0     # seconds that the desk is closed

    def guard(self) -> None:
        pass

    def load(self) -> None:
        if not self.loads:
            raise RulesAreGone("no file")
        self.is_gone = False

    def check_rules(self) -> None:
        if self.is_gone:
            raise RulesAreGone("gone")
        if self.is_empty:
            raise NotReady("`bound` is empty")

    def bar(self) -> None:
        self.is_barred = True

    def unbar(self) -> None:
        self.is_barred = False

    def passing(self) -> dict[str, Passing]:
        self.readings += 1
        return self.ask(self.now)

    def is_known(self) -> bool:
        return not self.is_new

    def ask(self, macs: Iterable[str]) -> dict[str, Passing]:
        there = [(mac, self.now[mac]) for mac in macs if mac in self.now]
        return {mac: Passing(p.session, p.base, p.count) for mac, p in there}

    def change(self, gone: Iterable[str], come: dict[str, Passing]) -> None:
        for mac in gone:
            del self.now[mac]
        self.now.update({mac: Passing(p.session, p.base, p.count) for mac, p in come.items()})
        self.renewed_at.append(self.clock())
        self.is_open = True

    def shut(self) -> None:
        self.is_open = False

    def close_desk(self, seconds: int) -> None:
        self.closed_for = seconds

    def open_desk(self) -> None:
        self.closed_for = 0

    def is_desk_closed(self) -> bool:
        return self.closed_for > 0


class Polls(unittest.TestCase):
    def setUp(self) -> None:
        self.desk, self.gate, self.time = MemoryDesk(), MemoryGate(lambda: self.time), 0.0
        self.agent = self.fresh()

    def fresh(self, snapshot: str | None = None) -> Agent:
        return Agent(cast(Desk, self.desk), self.gate, snapshot, quiet=30.0, now=lambda: self.time)

    def poll(self, seconds: float = 1.0) -> bool:
        self.time += seconds
        return self.agent.try_poll()

    def open_session(self, session: int = 1, mac: str = A, counted: int = 0) -> None:
        self.desk.open[session] = mac
        self.poll()
        self.gate.now[mac].count = counted

    def test_who_has_a_session_passes_and_nobody_else(self) -> None:
        self.open_session()
        self.assertEqual(set(self.gate.now), {A})
        self.desk.open = {2: B}
        self.poll()
        self.assertEqual(set(self.gate.now), {B})

    def test_the_last_count_of_an_ended_session_is_reported(self) -> None:
        self.open_session(counted=777)
        self.desk.open = {}
        self.poll()
        self.assertEqual(self.desk.used[1], 777)

    def test_a_last_count_that_the_desk_did_not_hear_is_reported_later(self) -> None:
        self.open_session(1, A, 777)
        self.open_session(2, B, 888)
        self.gate.now[A].count = 777
        self.desk.open, self.desk.deaf = {}, True
        self.assertFalse(self.poll())
        self.assertEqual(self.gate.now, {})
        self.desk.deaf = False
        self.poll()
        self.assertEqual(self.desk.used, {1: 777, 2: 888})

    def test_want_of_memory_at_the_desk_does_not_shut_at_once(self) -> None:
        self.open_session()
        self.desk.fault = Refused(503, "no_memory")
        self.assertFalse(self.poll())
        self.assertTrue(self.gate.is_open)

    def test_a_new_session_of_a_device_begins_at_nought(self) -> None:
        self.open_session(counted=777)
        self.desk.open = {2: A}
        self.poll()
        self.assertEqual((self.desk.used[1], self.desk.used[2], self.gate.now[A]), (777, 0, Passing(2, 0, 0)))

    def test_bytes_that_end_a_session_shut_it_in_the_same_poll(self) -> None:
        self.desk.allowance = {1: 1000}
        self.open_session(counted=1000)
        self.poll()
        self.assertEqual(self.gate.now, {})

    def test_a_gateway_that_lost_its_counts_goes_on_from_what_the_desk_holds(self) -> None:
        self.desk.used = {1: 5000}
        self.open_session()
        self.assertEqual(self.gate.now[A], Passing(1, 5000, 0))
        self.gate.now[A].count = 10
        self.poll(601)
        self.assertEqual(self.desk.used[1], 5010)

    def test_an_agent_started_again_counts_nothing_twice(self) -> None:
        self.open_session(counted=300)
        self.agent = self.fresh()
        self.poll()
        self.gate.now[A].count = 400
        self.poll(601)
        self.assertEqual(self.desk.used[1], 400)

    def test_reports_are_few_while_much_is_left(self) -> None:
        self.desk.allowance = {1: 10**9}
        self.open_session()
        for i in range(1, 21):
            self.gate.now[A].count = i * 1000
            self.poll()
        self.assertEqual(len(self.desk.asked), 1)
        self.poll(11)
        self.assertEqual(self.desk.asked[-1], (1, 20000))

    def test_a_report_comes_at_an_eighth_of_what_is_left(self) -> None:
        self.desk.allowance = {1: 8000}
        for counted, reports in ((999, 1), (1000, 2), (1800, 2), (1875, 3)):
            if not self.gate.now:
                self.open_session()
            self.gate.now[A].count = counted
            self.poll()
            self.assertEqual(len(self.desk.asked), reports, counted)

    def crowd(self, count: int, allowance: int = 0) -> None:
        """So many open sessions, all let in; each of their devices sends a kilobyte before each poll of `busy`."""
        self.desk.open = {i: f"02:00:00:00:{i >> 8:02x}:{i & 255:02x}" for i in range(1, count + 1)}
        self.desk.allowance = {i: allowance for i in self.desk.open} if allowance else {}
        while len(self.gate.now) < count:
            self.assertTrue(self.poll())

    def busy(self, seconds: float) -> list[int]:
        """Polls a second apart; how many reports each made."""
        end, reports = self.time + seconds, []
        while self.time < end:
            for passing in self.gate.now.values():
                passing.count += 1000
            before = len(self.desk.asked)
            self.assertTrue(self.poll())
            reports.append(len(self.desk.asked) - before)
        return reports

    def test_a_poll_that_takes_long_winds_the_switch_meanwhile(self) -> None:
        def slow() -> None:
            self.time += 0.4

        self.crowd(40, 10**5)
        self.desk.work = slow
        self.gate.renewed_at = [self.time]
        self.assertGreater(max(self.busy(60)), 3)
        gaps = [after - before for before, after in zip(self.gate.renewed_at, self.gate.renewed_at[1:])]
        self.assertLessEqual(max(gaps), 2.0)

    def test_a_poll_makes_a_bounded_number_of_reports(self) -> None:
        self.crowd(500, 10**6)
        self.time += 60
        self.assertEqual((self.busy(1), self.agent.has_postponed), ([50], True), "the next comes at once")
        reports = self.busy(60)
        self.assertEqual(max(reports), 50)
        self.assertEqual({session for session, _ in self.desk.asked[-1500:]}, set(range(1, 501)), "each in its turn")

    def test_who_needs_it_most_is_reported_first(self) -> None:
        self.crowd(120, 10**6)
        self.busy(29)
        last = self.gate.now[self.desk.open[120]]
        last.count = 900_000
        self.time, before = self.time + 5, len(self.desk.asked)
        self.poll()
        self.assertEqual(self.desk.asked[before], (120, 900_000))

    def read_crowd(self) -> int:
        """A crowd of 1,000 without limits, just read as a whole; how often it was read."""
        self.crowd(1000)
        self.time += 5
        before = self.gate.readings
        self.poll()
        self.assertEqual(self.gate.readings, before + 1)
        return self.gate.readings

    def test_a_small_venue_is_read_at_each_poll_and_a_large_one_each_five_seconds(self) -> None:
        self.crowd(100)
        before = self.gate.readings
        self.busy(60)
        self.assertEqual(self.gate.readings - before, 60)
        before = self.read_crowd()
        self.busy(60)
        self.assertEqual(self.gate.readings - before, 12)

    def test_the_last_count_of_one_of_a_crowd_is_that_of_its_end(self) -> None:
        before = self.read_crowd()
        self.gate.now[self.desk.open[7]].count = 777
        mac = self.desk.open.pop(7)
        self.poll()
        self.assertEqual((self.desk.used[7], mac in self.gate.now, self.gate.readings), (777, False, before))

    def test_bytes_that_end_a_session_shut_it_in_the_same_poll_in_a_crowd_too(self) -> None:
        self.desk.allowance = {7: 10**7}
        before = self.read_crowd()
        self.desk.allowance = {7: 10**7}
        self.poll()
        self.gate.now[self.desk.open[7]].count = 10**7
        mac = self.desk.open[7]
        self.poll()
        self.assertEqual((mac in self.gate.now, self.gate.readings), (False, before))

    def test_a_fast_device_of_a_crowd_is_looked_at_sooner(self) -> None:
        self.read_crowd()
        self.desk.allowance, mac = {7: 10**9}, self.desk.open[7]
        self.gate.now[mac].count = 5 * 10**8        # in five seconds
        self.poll(5)
        before = self.gate.readings
        self.gate.now[mac].count = 10**9
        self.poll()
        self.assertEqual((mac in self.gate.now, self.gate.readings), (False, before))

    def test_sets_that_were_loaded_anew_are_read_at_once(self) -> None:
        self.read_crowd()
        self.gate.now, self.gate.is_new = {}, True
        self.poll()
        self.assertEqual(len(self.gate.now), 50, "as many as a poll may let in")

    def test_what_somebody_took_out_is_let_in_at_the_next_reading(self) -> None:
        before, (one, other) = self.read_crowd(), (self.desk.open[7], self.desk.open[8])
        del self.gate.now[one], self.gate.now[other]
        self.poll()
        self.assertNotIn(other, self.gate.now)
        del self.desk.open[7]                   # its count is asked for, and it has none
        self.poll()
        self.assertEqual((other in self.gate.now, self.gate.readings), (True, before + 1))

    def test_after_a_poll_that_failed_all_is_read(self) -> None:
        """It let one in, whose bytes are counted from then on, and reported no other."""
        def silent() -> None:
            if B in self.gate.now:
                raise NoAnswer("silent")

        before = self.read_crowd()
        self.desk.allowance, self.desk.open[2000], self.desk.work = {7: 10**7}, B, silent
        self.gate.now[self.desk.open[7]].count = 5 * 10**6
        self.assertFalse(self.poll())
        self.desk.work = lambda: None
        self.gate.now[B].count = 555
        self.assertTrue(self.poll())
        self.assertEqual((self.gate.now[B].count, self.gate.readings), (555, before + 1))

    def test_reports_that_had_to_wait_are_made_at_the_next_poll(self) -> None:
        self.read_crowd()
        for passing in self.gate.now.values():
            passing.count = 1000
        self.time += 1200
        self.poll()
        before = len(self.desk.asked)
        self.poll(0.05)
        self.assertEqual((len(self.desk.asked) - before, self.agent.has_postponed), (50, True))

    def test_sessions_without_a_byte_limit_are_reported_each_ten_minutes_spread_over_time(self) -> None:
        self.crowd(200)
        for agent in ("the first", "one started again"):
            reports = self.busy(1200)
            self.assertLessEqual(max(reports), 3, agent)
            self.assertTrue(380 <= sum(reports) <= 420, (agent, sum(reports)))
            for i in range(0, 1200, 60):
                self.assertTrue(10 <= sum(reports[i:i + 60]) <= 30, (agent, i, sum(reports[i:i + 60])))
            self.agent = self.fresh()

    def test_a_session_without_a_byte_limit_is_reported_at_its_end(self) -> None:
        self.open_session(counted=777)
        self.poll()
        self.assertEqual(self.desk.used[1], 0)
        self.desk.open = {}
        self.poll()
        self.assertEqual(self.desk.used[1], 777)

    def test_reports_carry_no_number(self) -> None:
        """The desk keeps the greatest report, and numbers for good."""
        self.open_session(counted=777)
        self.poll(601)
        self.assertEqual((self.desk.used[1], self.desk.more), (777, []))

    def test_a_number_given_anew_to_another_device_is_not_reported_to(self) -> None:
        self.open_session(counted=900)
        self.desk.open, self.desk.used = {1: B}, {}
        self.poll()
        self.assertEqual(self.desk.used.get(1, 0), 0)

    def test_a_desk_that_stopped_shuts_the_gate_and_silence_leaves_it_to_the_switch(self) -> None:
        self.open_session()
        for fault, is_open in ((NoAnswer("x"), True), (Refused(503, "stopped"), False)):
            self.desk.fault = fault
            self.assertFalse(self.poll())
            self.assertEqual(self.gate.is_open, is_open)
        self.desk.fault = None
        self.assertTrue(self.poll() and self.gate.is_open)

    def test_whether_guests_pass_is_written_for_the_metrics(self) -> None:
        with tempfile.TemporaryDirectory() as folder:
            self.agent, path = self.fresh(str(pathlib.Path(folder) / "sessions.json")), pathlib.Path(folder) / "gate.json"
            self.open_session()
            states = []
            for fault, gone in ((None, False), (NoAnswer("x"), False), (Refused(503, "no_memory"), False),
                                (Refused(503, "stopped"), False), (None, False), (KeyError("x"), False), (None, False),
                                (None, True)):
                self.desk.fault, self.gate.is_gone = fault, gone
                self.poll()
                states.append(json.loads(path.read_text())["open"])
            # silence leaves it as it was: it shuts by itself, and so does what the metrics say, once its grace is over
            self.assertEqual(states, [True, True, True, False, True, False, True, False])
            self.assertAlmostEqual(json.loads(path.read_text())["at"], time.time(), delta=5)
            self.assertEqual(path.stat().st_mode & 0o777, 0o640)

    def test_without_its_rules_nothing_is_forwarded_until_they_are_back(self) -> None:
        self.open_session()
        self.desk.fault, self.gate.is_gone = NoAnswer("x"), True
        self.assertFalse(self.poll())
        self.assertTrue(self.gate.is_barred)
        self.gate.is_gone = False
        self.assertFalse(self.poll())
        self.assertTrue(self.gate.is_barred, "not before a good poll")
        self.desk.fault = None
        self.assertTrue(self.poll())
        self.assertFalse(self.gate.is_barred)

    def test_before_devices_and_addresses_are_in_the_rules_nothing_is_opened_nor_barred(self) -> None:
        self.open_session()
        self.gate.is_empty, self.gate.is_open, renewed_at = True, False, list(self.gate.renewed_at)
        self.assertFalse(self.poll())
        self.assertEqual((self.gate.is_open, self.gate.is_barred, self.gate.renewed_at), (False, False, renewed_at))
        self.gate.is_empty = False
        self.assertTrue(self.poll())
        self.assertTrue(self.gate.is_open)

    def test_rules_that_somebody_flushed_are_loaded_again(self) -> None:
        self.open_session()
        self.gate.is_gone = self.gate.loads = True
        self.assertFalse(self.poll())
        self.assertTrue(self.gate.is_barred, "not before a good poll")
        self.assertTrue(self.poll())
        self.assertFalse(self.gate.is_barred)

    def test_the_list_for_the_counter_tells_fresh_counts(self) -> None:
        with tempfile.TemporaryDirectory() as folder:
            path = pathlib.Path(folder) / "sessions.json"
            self.agent = self.fresh(str(path))
            self.open_session(counted=55)
            self.poll()
            self.assertEqual(self.session_in_list(path), {"device": A, "session": 1, "used": 55, "reported": 0})
            self.assertEqual(path.stat().st_mode & 0o777, 0o640)

    def session_in_list(self, path: pathlib.Path, age: int | None = 1) -> dict[str, Any]:
        """The one session of the list, whose count at the desk is so many seconds old."""
        row: dict[str, Any]
        row, = json.loads(path.read_text())["sessions"]
        at = row.pop("reported-at", None)
        self.assertIn(at if at is None else round(time.time()) - at, (None,) if age is None else range(age - 1, age + 2))
        return row

    def test_the_list_for_the_counter_tells_how_old_the_desks_count_is(self) -> None:
        with tempfile.TemporaryDirectory() as folder:
            path = pathlib.Path(folder) / "sessions.json"
            self.agent = self.fresh(str(path))
            self.open_session(counted=55)
            self.poll(100)
            self.assertEqual(self.session_in_list(path, 100)["reported"], 0)
            self.gate.now[A].count = 77
            self.poll(601)
            self.assertEqual(self.session_in_list(path, 0)["reported"], 77)
            self.agent = self.fresh(str(path))      # which does not know when it was reported
            self.poll()
            self.assertEqual(self.session_in_list(path, None), {"device": A, "session": 1, "used": 77})


class Stopped(Polls):
    """The server is stopped in order, and silent while it starts again."""

    def setUp(self) -> None:
        super().setUp()
        self.log = io.StringIO()
        self.enterContext(contextlib.redirect_stderr(self.log))

    def silent_polls(self, count: int) -> None:
        """So many seconds in which the server is silent."""
        self.desk.fault = NoAnswer("refused")
        for _ in range(count):
            self.poll()

    def renewed(self) -> float:
        """Seconds since the kernel's timeout was renewed."""
        return self.time - self.gate.renewed_at[-1]

    def test_sessions_go_on_for_a_minute_at_most(self) -> None:
        self.open_session()
        self.assertTrue(self.agent.close_desk())
        self.assertEqual(self.gate.closed_for, 60, "nobody else asks the desk meanwhile")
        self.silent_polls(59)
        self.assertEqual((set(self.gate.now), self.renewed()), ({A}, 0))
        self.silent_polls(10)
        self.assertEqual(self.renewed(), 10, "then the kernel's timeout runs")
        self.assertEqual(self.log.getvalue().count("the sessions go on for a minute at most"), 1)

    def test_the_kernels_timeout_is_within_the_minute(self) -> None:
        self.agent = Agent(cast(Desk, self.desk), self.gate, now=lambda: self.time, kept=55)
        self.open_session()
        self.agent.close_desk()
        self.silent_polls(70)
        self.assertEqual(self.renewed(), 16)

    def test_after_a_crash_nothing_is_kept(self) -> None:
        self.open_session()
        self.silent_polls(3)
        self.assertEqual(self.renewed(), 3)

    def test_what_was_closed_before_the_stop_stays_out(self) -> None:
        self.open_session(1, A)
        self.open_session(2, B)
        del self.desk.open[1]       # within the second before the stop
        self.agent.close_desk()
        self.silent_polls(2)
        self.assertEqual(set(self.gate.now), {B})

    def test_a_number_that_is_another_sessions_is_over(self) -> None:
        """As where somebody put another session's element there meanwhile."""
        self.open_session(1, A)
        self.open_session(2, B)
        self.agent.close_desk()
        self.gate.now[A].session = 7
        self.silent_polls(1)
        self.assertEqual(set(self.gate.now), {B})

    def test_without_its_last_list_nothing_is_kept(self) -> None:
        self.open_session()
        self.desk.fault = NoAnswer("too late")
        self.assertFalse(self.agent.close_desk())
        self.assertEqual(set(self.gate.now), {A})
        self.assertEqual(self.gate.closed_for, 0, "and all parts may ask")
        self.silent_polls(3)
        self.assertGreaterEqual(self.renewed(), 3)

    def test_a_poll_with_many_reports_takes_the_list_too(self) -> None:
        self.desk.allowance = {1: 1000}
        self.open_session(counted=900)

        def takes_long() -> None:
            self.time += 2

        self.desk.work = takes_long
        self.assertTrue(self.agent.close_desk())
        self.assertEqual(self.desk.used, {1: 900})
        self.silent_polls(3)
        self.assertEqual((self.gate.closed_for, self.renewed()), (60, 0))

    def test_a_server_that_says_stopped_ends_it(self) -> None:
        self.open_session()
        self.agent.close_desk()
        self.silent_polls(2)
        self.desk.fault = Refused(503, "stopped")
        self.poll()
        self.assertFalse(self.gate.is_open)
        self.silent_polls(2)
        self.assertFalse(self.gate.is_open)

    def test_each_session_ends_at_its_own_second(self) -> None:
        self.open_session(1, A)
        self.open_session(2, B)
        self.desk.seconds = {1: 10, 2: 90}
        self.agent.close_desk()
        self.silent_polls(9)
        self.assertEqual(set(self.gate.now), {A, B})
        self.silent_polls(1)
        self.assertEqual(set(self.gate.now), {B})

    def test_each_session_ends_at_its_own_byte(self) -> None:
        self.desk.allowance = {1: 1000, 2: 1000}
        self.open_session(1, A, counted=500)
        self.open_session(2, B)
        self.poll()             # which reports 500 of the first
        self.agent.close_desk()
        for used, passes in ((999, {A, B}), (1000, set[str]())):
            self.gate.now[A].count = self.gate.now[B].count = used
            self.silent_polls(1)
            self.assertEqual(set(self.gate.now), passes, used)
        self.desk.fault = None
        self.poll()
        self.assertEqual(self.desk.used, {1: 1000, 2: 1000}, "its last count is reported then")

    def test_once_the_server_answers_its_list_counts_and_all_may_ask(self) -> None:
        self.open_session()
        self.agent.close_desk()
        self.poll(0.05)
        self.assertEqual(self.gate.closed_for, 60, "as it is about to be stopped")
        self.silent_polls(20)
        self.desk.fault, self.desk.open = None, {2: B}
        self.poll()
        self.assertEqual((set(self.gate.now), self.gate.closed_for), ({B}, 0))
        self.silent_polls(2)
        self.assertEqual(self.renewed(), 2, "a crash after it is one as any other")

    def test_a_server_that_was_not_stopped_is_open_to_all_again(self) -> None:
        self.open_session()
        self.agent.close_desk()
        self.poll()
        self.assertEqual(self.gate.closed_for, 0)

    def test_where_the_desk_is_open_again_nothing_is_kept(self) -> None:
        """As after rules that were loaded without what they held: the server may have answered somebody."""
        self.open_session()
        self.agent.close_desk()
        self.silent_polls(2)
        self.gate.closed_for = 0
        self.silent_polls(2)
        self.assertEqual(self.renewed(), 2)

    def test_an_agent_opens_what_the_one_before_closed(self) -> None:
        self.open_session()
        self.agent.close_desk()
        self.agent = self.fresh()
        self.poll()
        self.assertEqual(self.gate.closed_for, 0)


class Paced(unittest.TestCase):
    """The agent's program, with an agent that notes when it polls."""

    def polls(self, count: int, knock: bool = False, postponed: bool = False) -> list[float]:
        """The seconds from each of so many polls to the next one, which is due after one second; with a knock during the
        first, or with reports that had to wait."""
        begun: list[float] = []

        def poll(agent: Agent) -> bool:
            begun.append(time.monotonic())
            agent.has_postponed = postponed
            if knock and len(begun) == 1:
                with socket.socket(socket.AF_UNIX, socket.SOCK_DGRAM) as front:
                    front.sendto(b"k", path)
            if len(begun) == count:
                raise KeyboardInterrupt
            return True

        with tempfile.TemporaryDirectory() as folder, contextlib.ExitStack() as stack:
            path = f"{folder}/knock"
            conf = {"desk_port": 1, "poll_seconds": 1.0, "lan": "lan0", "grace_seconds": 60, "rules": "", "quiet_seconds": 60,
                    "time_quiet_seconds": 600, "knock": path}
            stack.enter_context(mock.patch.dict(sys.modules, {"portal_field.gateway.kernel_gate": mock.MagicMock()}))
            for name, stand_in in (("settings", lambda where: conf), ("credential", lambda name: "t" * 32)):
                stack.enter_context(mock.patch.object(agent_program, name, stand_in))
            stack.enter_context(mock.patch.object(Agent, "try_poll", poll))
            with self.assertRaises(KeyboardInterrupt):
                agent_program.main()
        return [later - earlier for earlier, later in itertools.pairwise(begun)]

    def test_it_polls_when_the_time_is_over_and_at_once_after_a_knock(self) -> None:
        for waited in self.polls(3):
            self.assertGreater(waited, 0.95)
        first, second = self.polls(3, knock=True)
        self.assertGreater(second - first, 0.5)
        first, second = self.polls(3, postponed=True)
        self.assertLess(min(first, second), 0.9)


if __name__ == "__main__":
    unittest.main()
