"""portal-venues upgrade: one venue after another by a program that works, that does not start, that has less than before, and
that damages what it opens; each time with servers that run."""

from __future__ import annotations

import contextlib
import io
import os
import pathlib
import re
import shlex
import shutil
import subprocess
import tempfile
import unittest
from typing import ClassVar
from unittest import mock

from desk_process import FIELD, PLANS, Desk, Routes, free_port
from needs import NEEDS, needs

from portal_field.venues import ending, upgrade
from portal_field.venues.places import Machine, Places
from portal_field.venues.units import Units
from portal_field.venues.upgrade import DROP_IN, KEPT, PROGRAM, START, Upgrade
from portal_field.venues.venue_settings import all_venues

LINES = 'house = "House {0}"\nname = "wifi.example"\ncounter_name = "{0}.example"\nzone = "UTC0"\ndesk_port = {1}\n'
NAMES = ("north", "south", "west")
MACHINE = Machine("127.0.0.1")


class RunningUnits(Units):
    """Runs the program that a venue's drop-in names, or else the one that is installed, as systemd does."""

    def __init__(self, root: pathlib.Path) -> None:
        self.root, self.jobs, self.asked = root, dict[str, subprocess.Popen[bytes]](), list[tuple[str, ...]]()

    def program(self, name: str) -> pathlib.Path:
        """The program with which a venue starts."""
        drop_in = self.root / DROP_IN.format(name)
        found = re.search(r"(?m)^ExecStart=/(\S+)", drop_in.read_text()) if drop_in.exists() else None
        return self.root / (found[1] if found else PROGRAM)

    def ctl(self, *words: str) -> str:
        self.asked.append(words)
        for unit in words[1:]:
            if found := re.fullmatch(r"portal@(.*)\.service", unit):
                if words[0] in ("stop", "restart"):
                    self.end(found[1])
                if words[0] in ("start", "restart"):
                    self.begin(found[1])
        return ""

    def begin(self, name: str) -> None:
        """Starts a venue."""
        places = Places(name, self.root)
        port = re.search(r"desk_port = (\d+)", places.field.read_text())
        assert port
        places.database.parent.mkdir(parents=True, exist_ok=True)
        self.jobs[name] = subprocess.Popen([self.program(name), "serve", "--port", port[1], "--db", places.database, "--settings",
                                            places.settings / "portal.toml"], stdout=subprocess.DEVNULL, stderr=subprocess.DEVNULL)

    def end(self, name: str) -> None:
        """Ends a venue."""
        if job := self.jobs.pop(name, None):
            job.terminate()
            job.wait()

    def is_active(self, unit: str) -> bool:
        return any(unit == f"portal@{name}.service" for name in self.jobs)


@needs(*NEEDS["quick"])
class OneAfterAnother(unittest.TestCase):
    """Three venues of a machine, of which each has sold something with the program of before."""
    place: ClassVar[tempfile.TemporaryDirectory[str]]
    shipped: ClassVar[str]

    @classmethod
    def setUpClass(cls) -> None:
        cls.place = tempfile.TemporaryDirectory()
        cls.shipped = os.environ.get("FIELD_PORTAL", "")
        if not cls.shipped:
            path = f"{cls.place.name}/portal"
            subprocess.run(f"{FIELD.parent}/deb/shipped {path} && {path} --version", shell=True, check=True, capture_output=True)
            cls.shipped = path

    @classmethod
    def tearDownClass(cls) -> None:
        cls.place.cleanup()

    def setUp(self) -> None:
        self.root = pathlib.Path(self.enterContext(tempfile.TemporaryDirectory()))
        self.enterContext(mock.patch.object(ending, "PATIENCE", 3.0))
        self.units = RunningUnits(self.root)
        for name in NAMES:
            self.addCleanup(self.units.end, name)
        self.install("before")
        self.desks: dict[str, Desk] = {}
        for name in NAMES:
            places, port = Places(name, self.root), free_port()
            places.settings.mkdir(parents=True)
            places.field.write_text(LINES.format(name, port))
            Upgrade(MACHINE, self.root, self.units).run()       # its files, while it does not run
            self.units.begin(name)
            self.desks[name] = Desk(port, places.desk_token.read_text().strip())
            self.wait(name)
            self.desks[name].request_json(Routes.PLANS, body=PLANS)
            self.sell(name, "b1")
        (self.root / KEPT).mkdir(parents=True)
        shutil.copy(self.root / PROGRAM, self.root / KEPT / "1.0")
        self.units.asked.clear()

    def install(self, word: str, body: str = "") -> None:
        """Installs a program. `word`: its name, by which the tests know it."""
        path = self.root / PROGRAM
        path.parent.mkdir(parents=True, exist_ok=True)
        path.unlink(missing_ok=True)
        path.write_text(f"#!/bin/sh\necho {word} $* >> {self.root}/starts\n{body}\nexec {self.shipped} \"$@\"\n")
        path.chmod(0o755)

    def wait(self, name: str) -> None:
        """Waits until a venue answers."""
        self.assertTrue(ending.answers(self.desks[name].port, 20.0), name)

    def sell(self, name: str, batch: str) -> None:
        """Sells a voucher."""
        self.desks[name].request_json(Routes.ISSUE, body={"batch": batch, "plan": "hour", "count": 1})
        code = self.desks[name].request(Routes.PRINT, batch).decode().splitlines()[1].partition(",")[0]
        self.desks[name].request_json(Routes.SELL, body={"code": code})

    def sold(self, name: str) -> int:
        """What a venue has sold in all."""
        lines = self.desks[name].request(Routes.TAKINGS, query={"from": "2026-01-01", "to": "2026-12-31"}).decode().splitlines()
        return int(next(line for line in lines if line.startswith("total")).split()[1])

    def upgrade(self) -> tuple[int, str]:
        """Upgrades; the status and what was said."""
        words = io.StringIO()
        with contextlib.redirect_stdout(words), contextlib.redirect_stderr(words):
            status = Upgrade(MACHINE, self.root, self.units).run()
        return status, words.getvalue()

    def program_of(self, name: str) -> str:
        """The program with which a venue was started last."""
        port = str(self.desks[name].port)
        return [line.split()[0] for line in (self.root / "starts").read_text().splitlines() if port in line.split()][-1]

    def held(self) -> list[str]:
        """The venues that stay with the program of before."""
        return [name for name in NAMES if (self.root / DROP_IN.format(name)).exists()]

    def copies(self, name: str) -> list[str]:
        """The copies of before an upgrade."""
        return [path.name for path in Places(name, self.root).copies.glob("before-upgrade-*.db")]

    def test_each_is_copied_and_started_by_the_new_program(self) -> None:
        self.install("new")
        status, words = self.upgrade()
        self.assertEqual(status, 0, words)
        self.assertEqual(re.findall(r"(?m)^\[(\d)/3\] (\w+): answers$", words), [("1", "north"), ("2", "south"), ("3", "west")])
        self.assertEqual([len(self.copies(name)) for name in NAMES], [1, 1, 1])
        self.assertEqual([self.sold(name) for name in NAMES], [1, 1, 1])
        self.assertEqual([self.program_of(name) for name in NAMES], ["new"] * 3)
        self.assertEqual((self.held(), list((self.root / KEPT).iterdir())), ([], []), "nothing of the program of before is left")

    def test_a_database_is_migrated_once(self) -> None:
        """The copy of before is checked by the program of before, which does not make its tables anew."""
        self.install("new")
        self.assertEqual(self.upgrade()[0], 0)
        lines = [line.split() for line in (self.root / "starts").read_text().splitlines()]
        self.assertEqual([words[0] for words in lines if words[1] == "check"], ["before"] * 3)

    def test_a_large_database_has_more_time(self) -> None:
        places = Places("north", self.root)
        self.assertAlmostEqual(ending.patience_of(places), 3.0, delta=0.5)
        with open(f"{places.database}-wal", "ab") as log:
            log.truncate(90 << 20)
        self.assertAlmostEqual(ending.patience_of(places), 3 + 90 + 8 * 70, delta=4.0)
        asked = self.enterContext(mock.patch.object(upgrade, "answers", return_value=True))
        Upgrade(MACHINE, self.root, self.units).fault_of(places, all_venues(self.root)[0]["north"], {})
        self.assertGreater(asked.call_args.args[1], 92.0)

    def test_a_program_that_does_not_start_stops_it_and_it_goes_back(self) -> None:
        self.install("broken", "exit 1")
        status, words = self.upgrade()
        self.assertEqual(status, 1)
        self.assertIn("[1/3] north: FAILED: its desk does not answer\n    it went back: it answers with the program of before\n", words)
        self.assertIn("done: none; not done, with the program of before: south, west", words)
        self.assertEqual([self.sold(name) for name in NAMES], [1, 1, 1])
        self.assertEqual(self.held(), list(NAMES))
        starts = [words for words in self.units.asked if words[0] in ("start", "stop", "restart") and "portal@south.service" in words]
        self.assertEqual(starts, [], "the others go on")
        self.units.ctl("restart", "portal@west.service")
        self.wait("west")
        self.assertEqual((self.sold("west"), self.program_of("west"), self.program_of("north")), (1, "before", "before"), "also where one is started anew")

    def test_it_can_be_repeated_once_that_is_mended(self) -> None:
        self.install("broken-for-one", 'case "$*" in *south*) exit 1;; esac')
        status, words = self.upgrade()
        self.assertEqual((status, self.held()), (1, ["south", "west"]), words)
        self.assertIn("done: north; not done, with the program of before: west", words)
        self.sell("south", "b2")
        self.install("good")
        status, words = self.upgrade()
        self.assertEqual((status, self.held()), (0, []), words)
        self.assertEqual([self.sold(name) for name in NAMES], [1, 2, 1])

    def test_a_program_that_has_less_than_before_is_not_well(self) -> None:
        self.enterContext(mock.patch.object(ending, "PATIENCE", 20.0))     # it answers, however busy the machine is
        self.install("forgets", 'for word; do case "$word" in */book.db) set -- serve --port "$3" --db "$word.other" --settings "$7";; esac; done')
        status, words = self.upgrade()
        self.assertEqual(status, 1, words)
        self.assertRegex(words, r"north: FAILED: its takings(:| are less than before)")
        self.assertEqual([self.sold(name) for name in NAMES], [1, 1, 1])

    def test_a_database_that_the_program_of_before_does_not_take_comes_from_the_copy(self) -> None:
        self.install("damages", 'case "$1" in serve) printf damaged > "$5"; rm -f "$5-wal" "$5-shm"; exit 1;; esac')
        status, words = self.upgrade()
        self.assertEqual(status, 1)
        self.assertIn("it went back: it answers with the program of before, from its copy: restored", words)
        self.assertEqual([self.sold(name) for name in NAMES], [1, 1, 1])

    def test_without_a_program_of_before_the_copy_is_named(self) -> None:
        shutil.rmtree(self.root / KEPT)
        self.install("broken", "exit 1")
        status, words = self.upgrade()
        self.assertEqual((status, self.held()), (1, []))
        self.assertIn("no program of before is kept; its copy of before: ", words)

    def test_a_copy_that_fails_stops_it_before_the_new_program_starts(self) -> None:
        self.install("new")
        with mock.patch.object(upgrade, "backup", return_value="the disk is full"):
            status, words = self.upgrade()
        self.assertEqual(status, 1)
        self.assertIn("north: FAILED: the disk is full\n    it went back: it answers with the program of before\n", words)
        self.assertEqual(self.held(), list(NAMES))

    def test_a_venue_that_does_not_run_is_left_as_it_is(self) -> None:
        self.units.end("south")
        self.install("new")
        status, words = self.upgrade()
        self.assertEqual((status, words.count("answers")), (0, 2), words)
        self.assertFalse(self.units.is_active("portal@south.service"))

    def test_the_start_with_the_program_of_before_is_that_of_the_unit(self) -> None:
        unit = (FIELD / "units/portal@.service").read_text()
        own = re.search(r"(?m)^ExecStart=/usr/bin/portal (.*\\\n.*)$", unit)
        other = re.search(r"(?m)^ExecStart=/x (.*)$", START.format("/x"))
        assert own and other
        self.assertEqual(shlex.split(own[1].replace("\\\n", " ")), shlex.split(other[1]))


if __name__ == "__main__":
    unittest.main()
