"""The server's parent: whether the time is right, what it does where the server hangs, ends or cannot start."""

from __future__ import annotations

import contextlib
import io
import json
import os
import pathlib
import re
import signal
import socket
import sqlite3
import subprocess
import sys
import tempfile
import threading
import time
import unittest
from collections.abc import Callable
from unittest import mock

from desk_process import PORTAL, SETTINGS, Desk, NoAnswer, Routes, free_port

from portal_field.lib import machine_time
from portal_field.lib.machine_time import Notes
from portal_field.server import parent as server_parent, restarts, right_time as clock
from portal_field.server.accepted_steps import Steps
from steady import wait_until

DAY, NOW, BOOT = 86_400, 1_764_000_000, 1_763_999_000.0     # seconds; the machine has run for a thousand
WORD = "word"


class Folder(unittest.TestCase):
    def setUp(self) -> None:
        self.folder = pathlib.Path(self.enterContext(tempfile.TemporaryDirectory()))
        self.database, self.notes = self.folder / "book.db", Notes(str(self.folder))
        self.time, self.is_synchronised = float(NOW), False
        self.boot, self.uptime = "a boot", NOW - BOOT

    def clock(self, believed: str = "kernel") -> clock.Clock:
        """The judge of the clock as at a start of the server. What is set is `time`; the machine booted a
        thousand seconds before NOW."""
        steps = Steps(self.folder / "steps.json", lambda: self.boot, lambda: self.uptime)
        return clock.Clock(believed, self.notes, self.database, lambda: self.time,
                           lambda: self.time - self.uptime, lambda: self.is_synchronised, steps)

    def passes(self, seconds: float) -> None:
        """Lets so many seconds pass: the clock goes on with the machine."""
        self.time, self.uptime = self.time + seconds, self.uptime + seconds

    def boots(self, off: float, clock: float | None = None) -> None:
        """Boots the machine after it was off for so long; it goes on with the clock that it keeps meanwhile,
        or with another one."""
        self.time = self.time + off if clock is None else clock
        self.boot, self.uptime = self.boot + "+", 30.0
        self.notes.drop("found")

    def holds(self, last: int) -> sqlite3.Connection:
        """Makes a database whose last entry is of that time, in its log alone."""
        base = sqlite3.connect(self.database, isolation_level=None)
        self.addCleanup(base.close)
        base.execute("PRAGMA journal_mode=WAL")
        base.execute("CREATE TABLE portal_head (id INTEGER PRIMARY KEY, layout, last_moment INTEGER)")
        base.execute("INSERT INTO portal_head VALUES (1, 5, ?)", (last,))
        return base


class Times(Folder):
    def outcome(self, believed: str = "kernel") -> bool:
        """Whether the clock is right, by the program's judgement."""
        return self.clock(believed).judge().right

    def test_a_time_service_is_believed_and_no_other_program(self) -> None:
        self.holds(NOW - 5 * DAY)
        for is_kept, believed, right in ((True, "kernel", True), (False, "kernel", False), (True, "clerk", False),
                                         (False, "clerk", False), (False, "host", True)):
            self.is_synchronised = is_kept
            self.notes.drop("found")
            self.assertEqual(self.outcome(believed), right, (is_kept, believed))

    def test_without_one_the_time_is_within_a_day_after_the_last_entry(self) -> None:
        self.holds(NOW)
        for seconds, right in ((0, True), (DAY, True), (DAY + 1, False), (-1, False), (3650 * DAY, False),
                               (-3650 * DAY, False)):
            self.time = NOW + seconds
            self.notes.drop("found")
            self.assertEqual(self.outcome(), right, seconds)

    def test_a_new_database_waits(self) -> None:
        verdict = self.clock().judge()
        self.assertEqual((verdict.right, verdict.last), (False, None))
        self.holds(0)
        self.assertFalse(self.outcome(), "made, and without an entry")

    def test_a_database_that_does_not_read_waits(self) -> None:
        self.database.write_bytes(b"x" * 8192)
        verdict = self.clock().judge()
        self.assertEqual((verdict.right, "cannot be read" in verdict.why), (False, True))

    def test_looking_changes_neither_file(self) -> None:
        self.holds(NOW)
        files = {name: (self.folder / name).read_bytes() for name in ("book.db", "book.db-wal")}
        place = self.folder / "left"        # as a server that was killed leaves them: nobody else has them open
        place.mkdir()
        for name, data in files.items():
            (place / name).write_bytes(data)
        self.database = place / "book.db"
        self.assertTrue(self.outcome())
        self.assertTrue({path.name: path.read_bytes() for path in place.iterdir()} == files)

    def test_what_was_read_is_read_again_once_it_changed(self) -> None:
        base, one = self.holds(NOW + DAY), self.clock()
        self.assertEqual(one.judge().last, NOW + DAY)
        base.execute("UPDATE portal_head SET last_moment = ?", (NOW + 2,))
        self.assertEqual(one.judge().last, NOW + 2)
        self.time += 2
        self.assertTrue(one.judge().right)

    def test_a_clerks_word_is_used_once(self) -> None:
        self.notes.write(WORD, origin=BOOT, who="anna")
        verdict = self.clock().judge()
        self.assertEqual((verdict.right, "anna said" in verdict.why), (True, True))
        self.assertFalse((self.folder / WORD).exists())
        self.notes.drop("found")
        self.assertFalse(self.outcome())

    def test_a_word_for_a_clock_that_was_set_since_is_void(self) -> None:
        self.notes.write(WORD, origin=BOOT, who="anna")
        self.time += 3650 * DAY
        self.assertFalse(self.outcome())
        self.time -= 3650 * DAY
        self.assertFalse(self.outcome(), "it was for once")

    def test_a_word_that_does_not_read_is_none(self) -> None:
        for text in ("", "[]", '{"origin": "x"}', "{"):
            (self.folder / WORD).write_text(text)
            self.assertFalse(self.outcome(), text)

    def test_what_was_found_right_stays_so_until_the_clock_is_set(self) -> None:
        """As where the line is away for hours, and the server is started again after a quiet day."""
        self.holds(NOW - 6 * DAY)
        self.is_synchronised = True
        self.assertTrue(self.outcome())
        self.is_synchronised = False
        self.assertTrue(self.outcome())
        self.time += 61
        self.assertFalse(self.outcome())

    def test_small_steps_go_on_and_a_jump_does_not(self) -> None:
        self.is_synchronised, one = True, self.clock()
        one.judge()
        for _ in range(10):         # ten minutes in all
            self.time += 59
            self.assertFalse(one.was_set())
        self.is_synchronised = False
        self.assertTrue(self.clock().judge().right, "each was noted")
        for seconds in (60, -120):
            self.time += seconds
            self.assertTrue(one.was_set(), seconds)

    def test_a_clock_that_its_host_keeps_is_not_watched(self) -> None:
        one = self.clock("host")
        one.judge()
        self.time += 10 * DAY
        self.assertFalse(one.was_set())

    def test_sleep_and_being_held_still_are_no_jump(self) -> None:
        """The clock that goes on in sleep is looked at, and a look within which this process stood still is no look."""
        looks, times = iter([100.0, 400.0, 400.0, 400.0]), iter([1000.0, 1300.0])
        clocks = []

        def since_boot(which: int) -> float:
            clocks.append(which)
            return next(looks)

        with mock.patch("time.clock_gettime", since_boot), mock.patch("time.time", lambda: next(times)):
            self.assertEqual(machine_time.origin(), 900.0)
        self.assertEqual(set(clocks), {time.CLOCK_BOOTTIME})

    def test_the_kernels_word(self) -> None:
        class Kernel:
            status = error = 0

            def adjtimex(self, words: list[int]) -> int:
                words[3] = self.error
                return self.status

        kernel = Kernel()
        with mock.patch("ctypes.CDLL", lambda name: kernel):
            for status, error, good in ((0, 15_999_999, True), (5, 2, True), (5, 16_000_000, False), (-1, 0, False)):
                kernel.status, kernel.error = status, error
                self.assertEqual(clock.is_synchronised(), good, (status, error))


class Runs(Folder):
    def setUp(self) -> None:
        super().setUp()
        (self.folder / "settings.toml").write_text(SETTINGS)
        self.port = free_port()
        self.enterContext(mock.patch.object(server_parent.Watch, "EACH", 0.2))
        self.enterContext(mock.patch.object(server_parent, "AGAIN", 0.05))
        self.log = io.StringIO()
        self.status: list[int | None] = []

    def server(self, portal: str = PORTAL) -> server_parent.Server:
        """The parent of a server over this test's folder."""
        words = [*portal.split(), "serve", "--port", str(self.port), "--db", str(self.folder / "desk.db"),
                 "--settings", str(self.folder / "settings.toml")]
        return server_parent.Server(words, self.clock(), Desk(self.port, timeout=1.0), self.notes)

    def start(self) -> tuple[server_parent.Server, threading.Thread]:
        """Starts the server's parent in a thread."""
        server = self.server()

        def run() -> None:
            """Runs the server's parent to its end, and keeps its status."""
            with contextlib.redirect_stderr(self.log):
                self.status.append(server.run())

        thread = threading.Thread(target=run, daemon=True)
        thread.start()
        return server, thread

    def until(self, true: Callable[[], object], seconds: float = 10.0) -> bool:
        """Waits until it is so. Whether that came about before the time was over."""
        return wait_until(true, seconds, 0.02)

    def answers(self) -> bool:
        """Whether the server answers a request."""
        try:
            Desk(self.port, "gate-token", 1.0).request_json(Routes.SESSIONS)
        except NoAnswer:
            return False
        return True

    def end(self, server: server_parent.Server, thread: threading.Thread) -> None:
        """Ends the server by a kill, as nothing else ends it."""
        if server.watch:
            with contextlib.suppress(ProcessLookupError):
                os.kill(server.watch.pid, signal.SIGKILL)
        thread.join(10)

    def test_it_waits_for_the_time_and_starts_at_a_clerks_word(self) -> None:
        server, thread = self.start()
        self.addCleanup(self.end, server, thread)
        self.assertTrue(self.until(lambda: self.notes.read("state").get("is") == "waits"))
        time.sleep(0.3)
        self.assertFalse(self.answers())
        self.notes.write(WORD, origin=BOOT, who="anna")
        self.assertTrue(self.until(self.answers))
        self.assertEqual(self.notes.read("state")["is"], "serves")
        self.assertIn("anna said at the counter that it is right", self.log.getvalue())
        self.assertEqual(self.log.getvalue().count("server: waits"), 1, "said once")

    def test_a_clock_that_is_set_ends_the_server_until_it_is_right_again(self) -> None:
        self.is_synchronised = True
        server, thread = self.start()
        self.addCleanup(self.end, server, thread)
        self.assertTrue(self.until(self.answers))
        self.is_synchronised, self.time = False, self.time + 3650 * DAY
        self.assertTrue(self.until(lambda: self.notes.read("state").get("is") == "waits"))
        self.assertFalse(self.answers())
        self.assertIn("the machine's clock was set while the server ran", self.log.getvalue())
        self.time -= 3650 * DAY
        self.assertTrue(self.until(self.answers), "it is again the clock that was found right")

    def test_a_server_that_runs_is_judged_anew_where_a_service_sets_its_clock(self) -> None:
        self.is_synchronised = True
        server, thread = self.start()
        self.addCleanup(self.end, server, thread)
        self.assertTrue(self.until(self.answers))
        self.holds(NOW)
        for step, words in ((3650 * DAY, "more than seven days after"), (-DAY, "more than a minute before")):
            self.time += step
            self.assertTrue(self.until(lambda: self.notes.read("state").get("is") == "waits"), step)
            self.assertIn(words, self.notes.read("state")["why"])
            self.assertFalse(self.answers())
            self.time -= step
            self.assertTrue(self.until(self.answers))
        self.time += 6 * DAY
        self.assertTrue(self.until(lambda: self.log.getvalue().count("a time service keeps the clock\n") == 2), "it goes on")
        self.time += 6 * DAY
        self.assertTrue(self.until(lambda: "moved the clock forward" in str(self.notes.read("state").get("why"))))

    def test_a_server_that_hangs_is_ended(self) -> None:
        """By a connection that is open and silent."""
        self.is_synchronised = True
        server, thread = self.start()
        self.addCleanup(self.end, server, thread)
        self.assertTrue(self.until(self.answers))
        with socket.create_connection(("127.0.0.1", self.port)):
            self.until(lambda: not thread.is_alive(), 20)
        self.assertEqual(self.status, [server_parent.HUNG])
        self.assertIn("the server does not answer: it is ended", self.log.getvalue())

    def test_a_server_that_is_held_is_left_alone(self) -> None:
        self.is_synchronised = True
        server, thread = self.start()
        self.addCleanup(self.end, server, thread)
        self.assertTrue(self.until(lambda: server.watch and self.answers()))
        pid = server.watch.pid if server.watch else 0
        os.kill(pid, signal.SIGSTOP)
        time.sleep(5)           # three times in vain would be 3.3 s
        self.assertEqual(self.status, [])
        os.kill(pid, signal.SIGCONT)
        self.assertTrue(self.until(self.answers))
        self.assertEqual(self.status, [])

    def test_rules_that_refuse_the_watch_do_not_end_the_server(self) -> None:
        """As with the rules of before an upgrade: nothing answers here, and each connection is refused."""
        watch = server_parent.Watch(Desk(self.port, timeout=0.3), os.getpid())
        with contextlib.redirect_stderr(self.log):
            self.assertTrue(watch.answers() and watch.answers())
        self.assertEqual(self.log.getvalue().count("load them anew"), 1)

    def test_an_answer_of_any_kind_is_one(self) -> None:
        self.is_synchronised = True
        server, thread = self.start()
        self.addCleanup(self.end, server, thread)
        self.assertTrue(self.until(lambda: server.watch and self.answers()))
        time.sleep(2)
        self.assertEqual((self.status, server.watch and server.watch.silent), ([], 0))

    def run_to_end(self, script: str) -> tuple[int | None, dict[str, object], str]:
        """Runs the parent over a program that is this script: its status, its note and its log."""
        path = self.folder / "portal"
        path.write_text("#!/bin/sh\n" + script)
        path.chmod(0o755)
        self.notes.drop("state")
        self.is_synchronised, log = True, io.StringIO()
        with contextlib.redirect_stderr(log):
            status = self.server(str(path)).run()
        return status, self.notes.read("state"), log.getvalue()

    def test_what_no_start_can_mend_ends_for_good(self) -> None:
        for word, code, advice in (("settings", 3, "correct field.toml"), ("not_ours", 3, "another program's"),
                                   ("newer", 3, "install that version"), ("usage", 2, "command line")):
            status, state, log = self.run_to_end(f"echo 'portal: {word}' >&2; exit {code}")
            self.assertEqual((status, state.get("is")), (server_parent.NEVER, "failed"), word)
            for text in (log, str(state["why"])):
                self.assertIn(advice, text)
            self.assertIn(f"portal: {word}\n", log)

    def test_what_mends_by_itself_is_started_again(self) -> None:
        for script, code in (("echo 'portal: stopped' >&2; exit 3", 3), ("echo 'portal: file' >&2; exit 3", 3),
                             ("echo 'portal: network' >&2; exit 3", 3), ("echo 'portal: no_memory' >&2; exit 3", 3),
                             ("exit 3", 3), ("kill -KILL $$", 137), ("echo 'portal: settings' >&2; kill -KILL $$", 137),
                             ("exit 0", 0)):
            status, state, _ = self.run_to_end(script)
            self.assertEqual((status, state.get("is")), (code, "serves"), script)

    def test_stopped_by_systemd_it_ends_the_server(self) -> None:
        conf = self.folder / "server.toml"
        conf.write_text('clock = "host"\nzone = "UTC0"\n')
        words = [sys.executable, "-m", "portal_field.server.parent", "--portal", PORTAL, "--port", self.port, "--db",
                 self.folder / "desk.db", "--settings", self.folder / "settings.toml", "--notes", self.folder]
        with subprocess.Popen([str(word) for word in words], stderr=subprocess.PIPE,
                              env={**os.environ, "FIELD_SETTINGS": str(conf)}) as job:
            self.assertTrue(self.until(self.answers))
            job.terminate()
            self.assertEqual(job.wait(60), 0)
        self.assertFalse(self.answers())
        self.assertFalse((self.folder / "state").exists())

    def test_stopped_by_systemd_it_asks_the_gateway_first(self) -> None:
        """So that the agent takes its last list from a server that answers."""
        conf, path = self.folder / "server.toml", self.folder / "stops"
        conf.write_text('clock = "host"\nzone = "UTC0"\n')
        door = self.enterContext(socket.socket(socket.AF_UNIX))
        door.bind(str(path))
        door.listen()
        door.settimeout(20)
        words = [sys.executable, "-m", "portal_field.server.parent", "--portal", PORTAL, "--port", self.port, "--db",
                 self.folder / "desk.db", "--settings", self.folder / "settings.toml", "--notes", self.folder, "--gateway", path]
        with subprocess.Popen([str(word) for word in words], stderr=subprocess.PIPE,
                              env={**os.environ, "FIELD_SETTINGS": str(conf)}) as job:
            self.assertTrue(self.until(self.answers))
            job.terminate()
            asked = False
            with contextlib.suppress(OSError), door.accept()[0] as link:
                asked = self.answers() and link.recv(16) == b"stop"
                link.sendall(b"k")
            self.assertTrue(asked)
            self.assertEqual(job.wait(60), 0)


class Failed(Folder):
    def outcome(self, unit: str, command: list[str]) -> tuple[int, str]:
        """Runs the command of a unit that failed: its status and what was said."""
        for name in ("systemctl", "journalctl"):
            (self.folder / name).write_text(f"#!/bin/sh\necho {name} says CODE-1\n")
            (self.folder / name).chmod(0o755)
        conf = self.folder / "failed.toml"
        conf.write_text(f"on_failure = {json.dumps(command)}\n")
        env = {**os.environ, "FIELD_SETTINGS": str(conf), "PATH": f"{self.folder}:{os.environ['PATH']}"}
        done = subprocess.run([sys.executable, "-m", "portal_field.server.failed", unit], env=env, capture_output=True,
                              text=True)
        return done.returncode, done.stdout + done.stderr

    def test_a_command_is_run(self) -> None:
        goal = self.folder / "mail"
        self.assertEqual(self.outcome("portal-backup.service", ["tee", str(goal)])[0], 0)
        self.assertRegex(goal.read_text(),
                         r"^portal-backup.service failed on .*\n\nsystemctl says CODE-1\n\njournalctl says")
        self.outcome("portal-counter.service", ["tee", str(goal)])
        self.assertNotIn("journalctl", goal.read_text(), "its journal has codes")

    def test_a_unit_that_tells_itself_that_it_is_well_again(self) -> None:
        goal = self.folder / "mail"
        self.outcome("portal-venues-collect.service:back", ["tee", str(goal)])
        self.assertRegex(goal.read_text(), r"^portal-venues-collect.service is well again on ")

    def test_the_command_does_not_find_the_kits_modules(self) -> None:
        goal = self.folder / "environment"
        self.assertIn("PYTHONPATH", os.environ)
        self.assertEqual(self.outcome("portal.service", ["sh", "-c", f"env >{goal}"])[0], 0)
        self.assertNotRegex(goal.read_text(), "(?m)^PYTHON(PATH|DONTWRITEBYTECODE)=")
        self.assertIn("PATH=", goal.read_text())

    def test_without_a_command_the_journal_has_a_line(self) -> None:
        line = "portal.service failed; no command is set that reports it (on_failure in field.toml)\n"
        self.assertEqual(self.outcome("portal.service", []), (0, line))

    def test_a_command_that_cannot_be_run_is_a_fault(self) -> None:
        status, text = self.outcome("portal.service", ["/no/such/mail"])
        self.assertEqual((status, bool(re.search("failed.*/no/such/mail", text))), (1, True))


class Restarts(Folder):
    def setUp(self) -> None:
        super().setUp()
        self.mail, self.conf = self.folder / "mail", self.folder / "failed.toml"
        self.set_command(["tee", "-a", str(self.mail)])

    def set_command(self, command: list[str]) -> None:
        """Writes the command that reports a unit's failures into the settings."""
        self.conf.write_text(f"on_failure = {json.dumps(command)}\n")

    def look(self, count: int) -> int:
        """Looks at the restarts while systemd has started the server again so often, and the other parts not
        at all; the status."""
        rows = "".join(f"Id={unit}\nNRestarts={count if unit == 'portal.service' else 0}\n\n"
                       for unit in restarts.UNITS)
        for name, text in (("systemctl", rows.strip()), ("journalctl", "")):
            (self.folder / name).write_text(f"#!/bin/sh\ncat <<'END'\n{text}\nEND\n")
            (self.folder / name).chmod(0o755)
        env = {**os.environ, "FIELD_SETTINGS": str(self.conf), "PATH": f"{self.folder}:{os.environ['PATH']}",
               "RUNTIME_DIRECTORY": str(self.folder)}
        return subprocess.run([sys.executable, "-m", "portal_field.server.restarts"], env=env, capture_output=True).returncode

    def mails(self) -> list[str]:
        """The lines that were sent so far."""
        text = self.mail.read_text() if self.mail.exists() else ""
        return [line for line in text.splitlines() if " on " in line]

    def test_a_part_that_is_started_again_and_again_is_reported_once(self) -> None:
        for count in (30, 34):      # what was there at the first look is of the boot
            self.assertEqual(self.look(count), 0)
        self.assertEqual(self.mails(), [])
        for count in (35, 36, 90):
            self.assertEqual(self.look(count), 0)
        self.assertEqual(self.mails(), ["portal.service ended and was started again 5 times or more within 10 minutes on "
                                        f"{socket.gethostname()}."])

    def test_a_command_that_did_not_tell_is_asked_again(self) -> None:
        self.set_command(["/no/such/mail"])
        self.assertEqual([self.look(count) for count in (0, 5)], [0, 1])
        self.set_command(["tee", "-a", str(self.mail)])
        self.assertEqual((self.look(5), len(self.mails())), (0, 1))

    def test_the_list_of_the_version_before_is_read_and_can_read_what_is_written(self) -> None:
        seen = self.folder / "seen.json"
        now = time.clock_gettime(time.CLOCK_BOOTTIME)
        seen.write_text(json.dumps({unit: {"count": 5, "restarts": [now] * 5, "told": True} for unit in restarts.UNITS}))
        self.assertEqual((self.look(5), self.mails()), (0, []), "a report was sent before the upgrade")
        self.assertEqual({tuple(row) for row in json.loads(seen.read_text()).values()}, {("count", "restarts", "told")})

    def test_a_restart_of_ten_minutes_ago_does_not_count(self) -> None:
        four = restarts.UnitRestarts(0).later(4, NOW)
        self.assertTrue(four.later(5, NOW + 599).is_news())
        self.assertFalse(four.later(5, NOW + 600).is_news())

    def test_after_ten_minutes_without_one_it_is_news_again(self) -> None:
        outcome = restarts.UnitRestarts(5, [float(NOW)], is_reported=True)
        self.assertFalse(outcome.later(20, NOW + 599).is_news())
        self.assertTrue(outcome.later(5, NOW + 600).later(10, NOW + 601).is_news())

    def test_a_start_by_hand_begins_the_count_anew(self) -> None:
        self.assertFalse(restarts.UnitRestarts(9).later(4, NOW).is_news())
        self.assertTrue(restarts.UnitRestarts(9).later(5, NOW).is_news())


if __name__ == "__main__":
    unittest.main()
