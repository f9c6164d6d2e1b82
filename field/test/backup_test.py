"""Copies of the database while the server serves and sells, each one file that holds what was acknowledged; restores.

Run by itself it takes FIELD_PORTAL for the server; else the stand-in answers.
"""

from __future__ import annotations

import contextlib
import csv
import datetime
import os
import pathlib
import re
import shlex
import shutil
import signal
import sqlite3
import subprocess
import sys
import tempfile
import threading
import time
import unittest
from collections.abc import Callable
from unittest import mock

from desk_process import FIELD, PORTAL, Desk, DeskProcess, Refused, Routes
from needs import LOOP_DEVICES, ROOT, needs
from schema_versions import FIFTH, LATER, SIXTH, VERSIONS, make_database
from steady import wait_until

from portal_field.counter.journal import Act, Journal

COPIES = 3
SLOW_CP = 'touch "$(dirname "$0")/begun"\nexec sleep 20'
Done = subprocess.CompletedProcess[str]


def stub(folder: pathlib.Path, name: str, line: str) -> None:
    """A program of this name that comes first in the path of `with_stubs`."""
    (folder / name).write_text(f"#!/bin/sh\n{line}\n")
    (folder / name).chmod(0o755)


def with_stubs(folder: pathlib.Path) -> dict[str, str]:
    return {**os.environ, "PATH": f"{folder}:{os.environ['PATH']}"}


def systemctl(folder: pathlib.Path, state: str) -> None:
    """A `systemctl` that writes down what it was asked, for a server in this state."""
    stub(folder, "systemctl", f'echo "$1" >> {folder}/order\n[ "$1" != show ] || echo {state}')


def decimal(amount: int) -> str:
    return f"{amount / 100:.2f}"


def files(folder: pathlib.Path) -> dict[str, bytes]:
    return {path.name: path.read_bytes() for path in folder.iterdir() if path.name.startswith("book.db") and path.is_file()}


class Case(unittest.TestCase):
    def run_it(self, name: str, *words: object, folder: pathlib.Path | None = None) -> Done:
        line = [sys.executable, str(FIELD / name), *map(str, words)]
        return subprocess.run(line, capture_output=True, text=True, env=with_stubs(folder) if folder else None)

    def backup(self, desk: DeskProcess, *more: object) -> Done:
        return self.run_it("portal-backup", "--pid", desk.job.pid, "--portal", PORTAL, *more, desk.book, desk.folder / "copies")

    def make_copy(self, desk: DeskProcess, *more: object) -> pathlib.Path:
        done = self.backup(desk, *more)
        self.assertEqual((done.returncode, done.stderr), (0, ""))
        return pathlib.Path(done.stdout.strip())

    def restore(self, desk: DeskProcess, *words: object, folder: pathlib.Path | None = None) -> Done:
        return self.run_it("portal-restore", "--settings", desk.settings, "--portal", PORTAL, *words, folder=folder)

    def end(self, desk: DeskProcess) -> None:
        desk.job.kill()
        desk.job.wait()

    def has(self, desk: DeskProcess, batch: str) -> bool:
        try:
            return len(desk.desk.request(Routes.PRINT, batch).splitlines()) == 2
        except Refused:
            return False


@needs("procps")
class Journals(Case):
    """The counter's journal has a copy of its own."""

    def setUp(self) -> None:
        self.desk = self.enterContext(DeskProcess())
        self.desk.load()
        self.journal = Journal(self.desk.folder / "journal.db")
        self.copies = self.desk.folder / "copies"

    def names(self) -> list[str]:
        return sorted(path.name for path in self.copies.iterdir())

    def test_it_lies_beside_that_of_the_database_with_its_sum(self) -> None:
        self.journal.add("anna", "10.88.0.2", [Act("sell", "s1", "done", "b1", "hour", 1, 300)])
        copy = self.make_copy(self.desk, "--journal", self.journal.path)
        other = copy.with_name(f"journal-{copy.name}")
        self.assertEqual(self.names(), sorted(f"{path.name}{end}" for path in (copy, other) for end in ("", ".sha256")))
        done = subprocess.run(["sha256sum", "--check", *self.copies.glob("*.sha256")], cwd=self.copies, capture_output=True)
        self.assertEqual((done.returncode, other.stat().st_mode & 0o777), (0, 0o600))
        entry, = Journal(other).day(datetime.date.today())
        self.assertEqual((entry.clerk, entry.act, entry.batch, entry.price), ("anna", "sell", "b1", 300))

    def test_one_that_is_being_written_is_copied_between_two_entries(self) -> None:
        self.journal.add("anna", "x", [Act("sell", "s1", "done")])
        with contextlib.closing(sqlite3.connect(self.journal.path, isolation_level=None)) as link:
            link.execute("BEGIN IMMEDIATE")
            link.execute("INSERT INTO acts SELECT NULL, moment, 'karl', place, act, batch, plan, codes, price, 's2', answer FROM acts")
            copy = self.make_copy(self.desk, "--journal", self.journal.path)
            link.execute("COMMIT")
        paths = (str(copy.with_name(f"journal-{copy.name}")), self.journal.path)
        counts = [len(Journal(path).day(datetime.date.today())) for path in paths]
        self.assertEqual(counts, [1, 2])

    def test_as_many_are_kept_as_of_the_database(self) -> None:
        self.journal.add("anna", "x", [Act("sell", "s1", "done")])
        copies = [self.make_copy(self.desk, "--journal", self.journal.path, "--keep", 2) for _ in range(3)]
        self.assertEqual(self.names(), sorted(f"{begin}{copy.name}{end}" for copy in copies[1:] for begin in ("", "journal-")
                                              for end in ("", ".sha256")))

    def test_without_one_the_database_is_copied_and_a_damaged_one_is_reported(self) -> None:
        self.make_copy(self.desk, "--journal", self.journal.path)
        pathlib.Path(self.journal.path).write_bytes(b"no journal" * 999)
        done = self.backup(self.desk, "--journal", self.journal.path)
        self.assertEqual((done.returncode, "the counter's journal" in done.stderr), (1, True))
        self.assertTrue(pathlib.Path(done.stdout.strip()).exists())
        self.assertFalse(any(name.startswith("journal-") for name in self.names()))

    def test_a_restore_takes_the_newest_of_the_database_and_leaves_the_journal_as_it_is(self) -> None:
        self.journal.add("anna", "x", [Act("sell", "s1", "done")])
        copy = self.make_copy(self.desk, "--journal", self.journal.path)
        self.journal.add("anna", "x", [Act("sell", "s2", "done")])
        done = self.restore(self.desk, "--drill", "--folder", self.copies)
        self.assertEqual((done.returncode, f"{copy} restores and checks" in done.stdout), (0, True), done.stderr)
        self.end(self.desk)
        before = pathlib.Path(self.journal.path).read_bytes()
        self.assertEqual(self.restore(self.desk, copy, self.desk.book).returncode, 0)
        self.assertEqual(pathlib.Path(self.journal.path).read_bytes(), before)
        self.assertEqual(self.restore(self.desk, copy.with_name(f"journal-{copy.name}"), self.desk.book).returncode, 1)


@needs("procps")
class Copies(Case):
    def sells(self, desk: DeskProcess, codes: list[str], stop: threading.Event) -> None:
        patient = Desk(desk.port, "desk-token", timeout=60)
        while not stop.is_set():
            name = f"b{len(codes)}"
            patient.request_json(Routes.ISSUE, body={"batch": name, "plan": "hour", "count": 1})
            codes.append(name)
            time.sleep(0.005)

    def test_copies_under_load(self) -> None:
        with DeskProcess() as desk:
            desk.load()
            codes: list[str] = []
            stop = threading.Event()
            worker = threading.Thread(target=self.sells, args=(desk, codes, stop))
            worker.start()
            try:
                for _ in range(COPIES):
                    self.waits(codes, len(codes) + 10)
                    before = list(codes)
                    self.holds(self.make_copy(desk, "--check", desk.settings), before)
                    self.waits(codes, len(codes) + 1)     # the server goes on
            finally:
                stop.set()
                worker.join()

    def waits(self, codes: list[str], count: int) -> None:
        self.assertTrue(wait_until(lambda: len(codes) >= count, 10, 0.01), "the server sells no more")

    def holds(self, copy: pathlib.Path, names: list[str]) -> None:
        """Served from a copy of this one file, as opening writes, every batch that was acknowledged is there."""
        self.assertGreater(len(names), 0)
        self.assertEqual(copy.stat().st_mode & 0o777, 0o600)
        words = ["sha256sum", "--check", "--status", f"{copy.name}.sha256"]
        self.assertEqual(subprocess.run(words, cwd=copy.parent).returncode, 0)
        with contextlib.closing(sqlite3.connect(f"file:{copy}?mode=ro&immutable=1", uri=True)) as base:
            self.assertEqual(base.execute("PRAGMA integrity_check").fetchall(), [("ok",)])
        with DeskProcess() as trial:
            self.end(trial)
            for path in trial.folder.glob("book.db*"):
                path.unlink()
            shutil.copy(copy, trial.book)
            with DeskProcess(trial.book) as again:
                self.assertEqual([name for name in names if not self.has(again, name)], [])

    def test_a_copy_is_made_while_the_desk_is_held_still(self) -> None:
        """A `cp` that says what the server's process was doing when it ran."""
        with DeskProcess() as desk:
            desk.load()
            stub(desk.folder, "cp", f"cut -d' ' -f3 /proc/{desk.job.pid}/stat >> {desk.folder}/seen\nexec /bin/cp \"$@\"")
            with mock.patch.dict(os.environ, with_stubs(desk.folder)):
                self.assertEqual(self.backup(desk).returncode, 0)
            seen = (desk.folder / "seen").read_text().split()
            self.assertTrue(seen and set(seen) == {"T"}, seen)

    def order(self, desk: DeskProcess) -> list[str]:
        return (desk.folder / "order").read_text().split()

    def test_the_service_is_frozen_and_goes_on_whatever_happens(self) -> None:
        for cp, status in (('exec /bin/cp "$@"', 0), ("exit 1", 75)):
            with DeskProcess() as desk:
                desk.load()
                systemctl(desk.folder, "active")
                stub(desk.folder, "cp", f"echo cp >> {desk.folder}/order\n{cp}")
                done = self.run_it("portal-backup", desk.book, desk.folder / "copies", folder=desk.folder)
                self.assertEqual(done.returncode, status, done.stderr)
                calls = ["show", "freeze", *["cp"] * (2 if status == 0 else 1), "thaw"]
                self.assertEqual(self.order(desk), calls)
                self.assertEqual(len(list((desk.folder / "copies").iterdir())), 2 if status == 0 else 0)

    def test_a_backup_that_is_ended_in_the_middle_thaws(self) -> None:
        """By a stop, and by a kill that it cannot see."""
        for number in (signal.SIGTERM, signal.SIGKILL):
            with DeskProcess() as desk:
                systemctl(desk.folder, "active")
                stub(desk.folder, "cp", SLOW_CP)
                words = [sys.executable, str(FIELD / "portal-backup"), str(desk.book), str(desk.folder / "copies")]
                job = subprocess.Popen(words, env=with_stubs(desk.folder), stdin=subprocess.DEVNULL)
                self.comes(lambda: (desk.folder / "begun").exists(), "cp")
                job.send_signal(number)
                job.wait(60)
                self.comes(lambda: self.order(desk) == ["show", "freeze", "thaw"], f"thaw after signal {number}")
                left = list((desk.folder / "copies").iterdir())
                self.assertEqual(len(left), int(number == signal.SIGKILL), left)

    def comes(self, true: Callable[[], object], what: str) -> None:
        self.assertTrue(wait_until(true, 10, 0.02), f"waited in vain for {what}")

    def test_what_a_killed_backup_left_is_removed(self) -> None:
        with DeskProcess() as desk:
            left = desk.folder / "copies/.part-old"
            left.mkdir(parents=True)
            (left / "copy.db").write_bytes(b"half")
            self.make_copy(desk)
            self.assertFalse(left.exists())

    def test_a_server_that_does_not_run_is_not_frozen(self) -> None:
        for state in ("inactive", "failed"):
            with DeskProcess() as desk:
                desk.load()
                self.end(desk)
                systemctl(desk.folder, state)
                done = self.run_it("portal-backup", desk.book, desk.folder / "copies", folder=desk.folder)
                self.assertEqual((done.returncode, done.stderr, self.order(desk)), (0, "", ["show"]))

    def test_a_database_that_nobody_writes_is_copied_while_the_server_runs_over_another(self) -> None:
        """As an upgrade does with the two files that it copied before the server's start."""
        with DeskProcess() as desk:
            self.end(desk)
            systemctl(desk.folder, "active")
            done = self.run_it("portal-backup", "--still", "--portal", PORTAL, desk.book, desk.folder / "copies", folder=desk.folder)
            self.assertEqual(done.returncode, 0, done.stderr)
            self.assertFalse((desk.folder / "order").exists() and "freeze" in (desk.folder / "order").read_text())

    def test_one_that_runs_without_systemd_is_not_copied_as_it_writes(self) -> None:
        with DeskProcess() as desk:
            systemctl(desk.folder, "inactive")
            done = self.run_it("portal-backup", desk.book, desk.folder / "copies", folder=desk.folder)
            self.assertEqual((done.returncode, list((desk.folder / "copies").iterdir())), (75, []))
            self.assertIn("another process has", done.stderr)

    def test_the_newest_copies_are_kept(self) -> None:
        with DeskProcess() as desk:
            earlier = desk.folder / "copies/20200101T033000.000000Z"     # by a version that made folders
            earlier.mkdir(parents=True)
            paths = [str(self.make_copy(desk, "--keep", 2)) for _ in range(4)]
            copies = sorted(str(path) for path in (desk.folder / "copies").iterdir())
            self.assertEqual(copies, sorted([*paths[2:], *(f"{path}.sha256" for path in paths[2:])]))

    def test_a_copy_that_does_not_check_is_not_kept(self) -> None:
        with DeskProcess() as desk:
            done = self.backup(desk, "--check", desk.folder / "no-settings")
            self.assertEqual((done.returncode, done.stdout), (1, ""))
            self.assertEqual(list((desk.folder / "copies").iterdir()), [])
            with self.assertRaises(Refused):        # and the server goes on
                desk.desk.request(Routes.PRINT, "b1")

    def test_a_database_without_its_log_is_no_copy(self) -> None:
        """To the program it is an empty database, and checks."""
        with DeskProcess() as desk:
            desk.load()
            self.end(desk)
            pathlib.Path(f"{desk.book}-wal").unlink()
            systemctl(desk.folder, "inactive")
            done = self.run_it("portal-backup", "--portal", PORTAL, "--check", desk.settings, desk.book,
                               desk.folder / "copies", folder=desk.folder)
            self.assertEqual((done.returncode, list((desk.folder / "copies").iterdir())), (1, []))
            self.assertIn("its log is missing", done.stderr)


@needs("procps", "rsync")
class CarriedOff(Case):
    def test_copies_are_carried_off_as_the_page_says(self) -> None:
        """By its line, to a folder of this machine. A copy that was damaged here since stays good there."""
        line = re.search(r"(?m)^\$ (rsync .*)$", (FIELD.parent / "docs/NEW_MACHINE.md").read_text())
        assert line
        with DeskProcess() as desk:
            desk.load()
            copy, far = self.make_copy(desk), desk.folder / "far"
            words = [{"/var/backups/portal-whole/": f"{copy.parent}/", "HOST:venue/": f"{far}/"}.get(word, word)
                     for word in line[1].split()]
            for _ in range(2):
                subprocess.run(words, check=True)
                check = subprocess.run(["sh", "-c", "sha256sum --check --strict *.sha256"], cwd=far, capture_output=True)
                self.assertEqual(check.returncode, 0)
                copy.write_bytes(b"damaged")
            self.end(desk)
            systemctl(desk.folder, "inactive")
            self.assertEqual(self.restore(desk, far / copy.name, desk.book, folder=desk.folder).returncode, 0)


@needs("btrfs-progs", "procps", ROOT, LOOP_DEVICES)
class Snapshots(Case):
    """A database in a btrfs subvolume, in a file system in a file."""

    def setUp(self) -> None:
        place = pathlib.Path(self.enterContext(tempfile.TemporaryDirectory()))
        (place / "there").mkdir()
        for words in (["truncate", "-s", "200M", place / "image"], ["mkfs.btrfs", "-q", "-m", "single", place / "image"],
                      ["mount", "-o", "loop", place / "image", place / "there"],
                      ["btrfs", "subvolume", "create", place / "there/data"]):
            if words[0] == "mount":
                self.addCleanup(lambda: subprocess.run(["umount", "--lazy", place / "there"], check=False))
            subprocess.run([str(word) for word in words], check=True, capture_output=True)
        self.data, self.place = place / "there/data", place / "there/.data.snapshot"

    def test_a_snapshot_needs_no_freeze_and_holds_what_was_answered(self) -> None:
        with DeskProcess(self.data / "book.db") as desk:
            desk.load()
            systemctl(desk.folder, "active")
            sells, stop = Copies(), threading.Event()
            codes: list[str] = []
            worker = threading.Thread(target=sells.sells, args=(desk, codes, stop))
            worker.start()
            try:
                for _ in range(COPIES):
                    sells.waits(codes, len(codes) + 10)
                    before = list(codes)
                    done = self.run_it("portal-backup", "--portal", PORTAL, "--check", desk.settings, desk.book,
                                       desk.folder / "copies", folder=desk.folder)
                    self.assertEqual((done.returncode, done.stderr), (0, ""))
                    self.assertFalse(self.place.exists())
                    sells.holds(pathlib.Path(done.stdout.strip()), before)
            finally:
                stop.set()
                worker.join()
            self.assertFalse((desk.folder / "order").exists(), "systemctl was asked")

    def test_a_snapshot_that_a_killed_backup_left_is_replaced(self) -> None:
        with DeskProcess(self.data / "book.db") as desk:
            subprocess.run(["btrfs", "subvolume", "snapshot", "-r", self.data, self.place], check=True, capture_output=True)
            desk.load()
            desk.issue_codes("hour", "b1")
            systemctl(desk.folder, "active")
            done = self.run_it("portal-backup", desk.book, desk.folder / "copies", folder=desk.folder)
            self.assertEqual((done.returncode, done.stderr), (0, ""))
            Copies().holds(pathlib.Path(done.stdout.strip()), ["b1"])

    def test_a_snapshot_that_the_server_could_exchange_is_not_deleted(self) -> None:
        other = self.data.with_name("other")
        subprocess.run(["btrfs", "subvolume", "create", other], check=True, capture_output=True)
        with DeskProcess(self.data / "book.db") as desk:
            (self.data / ".snapshot").symlink_to(other)
            desk.load()
            systemctl(desk.folder, "active")
            done = self.run_it("portal-backup", desk.book, desk.folder / "copies", folder=desk.folder)
        self.assertTrue(other.exists())
        self.assertEqual((done.returncode, done.stderr), (0, ""))


@needs("procps")
class Restores(Case):
    def test_a_copy_is_restored_and_the_gateways_counts_dropped(self) -> None:
        """With an `nft` and a `systemctl` that only say what they were asked."""
        with DeskProcess() as desk:
            desk.load()
            copy = self.make_copy(desk)
            desk.issue_codes("hour", "later")
            stub(desk.folder, "nft", f'echo "nft $*" >> {desk.folder}/asked')
            stub(desk.folder, "systemctl", "echo inactive")
            self.end(desk)
            before = files(desk.folder)
            done = self.restore(desk, copy, desk.book, folder=desk.folder)
            self.assertEqual((done.returncode, done.stderr), (0, ""))
            calls = (desk.folder / "asked").read_text()
            for name in ("inet portal alive", "inet portal up", "netdev portal down"):
                self.assertIn("flush set " + name, calls)
            aside, = desk.folder.glob("book.db.before-*")
            self.assertEqual(files(aside), before)
            self.assertIn(str(aside), done.stdout)
            self.assertEqual(files(desk.folder), {"book.db": copy.read_bytes()})     # and no log of before
            with DeskProcess(desk.book) as again:
                self.assertFalse(self.has(again, "later"))
                self.assertEqual(len(again.issue_codes("hour", "b1")), 1)

    def test_both_files_of_an_earlier_copy_are_restored(self) -> None:
        """A folder with the database and its log, as portal-backup made them before it folded the log in."""
        with DeskProcess() as desk:
            desk.load()
            desk.issue_codes("hour", "b1")
            self.end(desk)
            shutil.copytree(desk.folder, desk.folder / "earlier", ignore=lambda _, names: set(names) - {"book.db", "book.db-wal"})
            pathlib.Path(f"{desk.book}-wal").unlink()
            stub(desk.folder, "systemctl", "echo inactive")
            done = self.restore(desk, desk.folder / "earlier", desk.book, folder=desk.folder)
            self.assertEqual((done.returncode, done.stderr), (0, ""))
            with DeskProcess(desk.book) as again:
                self.assertTrue(self.has(again, "b1"))

    def refuses(self, desk: DeskProcess, copy: pathlib.Path, word: str) -> None:
        """The copy is refused with this word, and nothing is replaced."""
        before = files(desk.folder)
        done = self.restore(desk, copy, desk.book, folder=desk.folder)
        self.assertEqual((done.returncode, files(desk.folder) == before), (1, True))
        self.assertIn(word, done.stderr)
        self.assertEqual([path.name for path in desk.folder.glob("*restore*")] + list(desk.folder.glob("book.db.before-*")), [])

    def test_a_copy_is_checked_before_anything_is_replaced(self) -> None:
        with DeskProcess() as desk:
            desk.load()
            copy = self.make_copy(desk)
            self.end(desk)
            stub(desk.folder, "systemctl", "echo inactive")
            whole, sums = copy.read_bytes(), pathlib.Path(f"{copy}.sha256")
            self.refuses(desk, copy.with_name("none.db"), "there is no file")
            copy.write_bytes(whole[:-4096])
            self.refuses(desk, copy, "SHA-256")
            sums.unlink()
            self.refuses(desk, copy, "SQLite")
            copy.write_bytes(b"")
            self.refuses(desk, copy, "empty")
            copy.write_bytes(whole)
            desk.settings.unlink()
            self.refuses(desk, copy, "`portal check` says")

    def test_nothing_is_restored_under_a_running_desk(self) -> None:
        """Nor under one that systemd starts again each second, nor one that runs without systemd."""
        with DeskProcess() as desk:
            copy = self.make_copy(desk)
            for state, word in (("active", "stop portal.service first"), ("activating", "stop portal.service first"),
                                ("inactive", "another process has")):
                stub(desk.folder, "systemctl", f"echo {state}")
                self.refuses(desk, copy, word)

    def drill(self, folder: pathlib.Path, zone: str, moment: int) -> Done:
        """Over a database that has a last moment, and a program that says which takings it was asked for."""
        copies = folder / "copies"
        copies.mkdir(exist_ok=True)
        base = sqlite3.connect(copies / "20261125T033000.000000Z.db")
        base.executescript("CREATE TABLE IF NOT EXISTS portal_head (layout INTEGER, last_moment INTEGER); DELETE FROM portal_head; "
                           f"INSERT INTO portal_head VALUES (5, {moment});")
        base.close()
        stub(folder, "portal", '[ "$1" = check ] && echo ok && exit\necho "$1 $2 $3"')
        (folder / "settings.toml").write_text(f'zone = "{zone}"\n')
        return self.run_it("portal-restore", "--drill", "--folder", copies, "--portal", folder / "portal",
                           "--settings", folder / "settings.toml")

    def test_a_drill_prints_the_takings_of_the_last_day(self) -> None:
        """Unix time 1795618800 is 2026-11-25, 15:00 in UTC: the next day nine hours and more east of it."""
        with tempfile.TemporaryDirectory() as place:
            for zone, day in (("UTC0", "2026-11-25"), ("XST-9", "2026-11-26"), ("XST-8:59", "2026-11-25")):
                done = self.drill(pathlib.Path(place), zone, 1795618800)
                self.assertEqual((done.returncode, done.stderr), (0, ""))
                self.assertIn(f"takings {day} {day}\n", done.stdout)
                self.assertIn("20261125T033000.000000Z.db", done.stdout)

    def test_the_package_gets_the_schema_version_of_what_was_restored(self) -> None:
        """The package's file beside the database, where there is one, says what an older version is compared with."""
        with tempfile.TemporaryDirectory() as place:
            folder = pathlib.Path(place)
            self.drill(folder, "UTC0", 0)
            stub(folder, "systemctl", "echo inactive")
            (folder / "schema").write_text("6\n")
            done = self.run_it("portal-restore", "--portal", folder / "portal", "--settings", folder / "settings.toml",
                               folder / "copies/20261125T033000.000000Z.db", folder / "book.db", folder=folder)
            self.assertEqual((done.returncode, (folder / "schema").read_text()), (0, "5\n"), done.stderr)

    def test_a_drill_of_a_damaged_copy_says_so(self) -> None:
        with tempfile.TemporaryDirectory() as place:
            copies = pathlib.Path(place) / "copies"
            copies.mkdir()
            (copies / "20261126T033000.000000Z.db").write_bytes(b"no database, though as long as a header of one" * 4)
            done = self.drill(pathlib.Path(place), "UTC0", 0)
            self.assertEqual((done.returncode, done.stdout), (1, ""))
            self.assertIn("SQLite cannot read it", done.stderr)


@needs("procps")
class Undone(Case):
    """What a restore says that it undid."""

    def setUp(self) -> None:
        self.folder = pathlib.Path(self.enterContext(tempfile.TemporaryDirectory()))
        self.book, self.copy = self.folder / "book.db", self.folder / "copy.db"
        stub(self.folder, "systemctl", "echo inactive")
        stub(self.folder, "portal", '[ "$1" = check ] && echo ok')
        (self.folder / "settings.toml").write_text('zone = "XST-9"\n')

    def run_restore(self) -> tuple[str, list[pathlib.Path]]:
        """What was printed, and the lists that were written; the copy is in the database's place, whatever was there."""
        before, copy = files(self.folder), self.copy.read_bytes()
        done = self.run_it("portal-restore", "--portal", self.folder / "portal", "--settings", self.folder / "settings.toml",
                           self.copy, self.book, folder=self.folder)
        self.assertEqual((done.returncode, done.stderr), (0, ""))
        self.assertTrue(files(self.folder) == {"book.db": copy})        # (the difference of two databases is long)
        aside, = self.folder.glob("book.db.before-*")
        lists = list(aside.glob("*.csv"))
        self.assertTrue(files(aside) == before)
        seen = aside.rename(self.folder / f"seen-{time.monotonic_ns()}")
        return done.stdout, [seen / path.name for path in lists]

    def test_sales_refunds_and_redemptions_of_each_schema_version_are_listed(self) -> None:
        """Of 5.00 for three uses 3.33 are left after one. Unix time 90000 is 1970-01-02, 10:00 nine hours east of UTC."""
        for version, earlier in ((version, earlier) for version in VERSIONS for earlier in sorted({1, version})):
            with self.subTest(version=version, copy=earlier):
                self.book.unlink(missing_ok=True)
                self.copy.unlink(missing_ok=True)
                make_database(self.book, version, LATER)
                make_database(self.copy, earlier)
                text, lists = self.run_restore()
                self.assertEqual(len(lists), 1, text)
                path = lists[0]
                self.assertIn("sold 2 (8.00), refunded 1 (5.00), redeemed 3 (6.33)\n", text)
                self.assertIn(f"/{path.name}\n", text)
                self.assertNotRegex(re.sub(r"/\S*", "", text), "2222|4444")     # a path has the time in it, and digits by chance
                self.assertEqual(path.stat().st_mode & 0o777, 0o600)
                self.assertEqual(path.read_text().splitlines(), [
                    "what,time,code,batch,plan,uses,sum,in the copy",
                    "redeemed,1970-01-01 09:20:00,2222-2222-223N,b1,gig,2,3.33,sold",
                    "refunded,1970-01-01 09:21:40,2222-2222-2222,b1,gig,,5.00,sold",
                    "sold,1970-01-01 09:23:20,2222-2222-2249,b1,gig,,5.00,unsold",
                    "sold,1970-01-01 09:25:00,4444-4444-444A,b3,hour,,3.00,not issued",
                    "redeemed,1970-01-02 10:00:00,4444-4444-444A,b3,hour,1,3.00,not issued"])

    def test_the_tables_of_this_test_are_those_of_the_specification(self) -> None:
        """A table's text is in pieces there, an index's in one. A kit that is installed alone has no crates."""
        specs = FIELD.parent / "crates/portal_tables_sql/specs"
        if specs.parent.is_dir():
            tables = re.findall(r'codes ("CREATE TABLE [^"]*"(?:\s*\+\+ codes "[^"]*")*)', (specs / "Tables.antt").read_text())
            texts = ["".join(re.findall(r'"([^"]*)"', pieces)) for pieces in tables]
            texts += re.findall(r'"(CREATE INDEX [^"]*)"', (specs / "Indexes.antt").read_text())
            fifth, sixth = ([line.strip() for line in statements.split(";")[:-1]] for statements in (FIFTH, SIXTH))
            apart = [text for text in texts if "portal_counts" in text or "portal_totals" in text]
            self.assertEqual(sixth, [text for text in texts if text not in apart])
            self.assertEqual(apart, [line for line in fifth if line in apart])

    def test_version_5_has_the_columns_of_version_4(self) -> None:
        """Without the keys of text and what refers to them: `pk`, the last of what is said of a column, differs."""
        columns = []
        for version in (4, 5):
            path = self.folder / f"{version}.db"
            make_database(path, version)
            with contextlib.closing(sqlite3.connect(path)) as base:
                tables = [name for name, in base.execute("SELECT name FROM sqlite_master WHERE type = 'table' ORDER BY name")]
                columns.append({name: [row[:-1] for row in base.execute(f"PRAGMA table_info({name})")] for name in tables})
        self.assertEqual(len(columns[0]), 9)
        self.assertEqual(columns[1], columns[0])

    def test_what_cannot_be_read_is_said_and_hinders_no_restore(self) -> None:
        foreign = 'CREATE TABLE acts (number INTEGER);'
        make_database(self.copy, 5)
        whole = self.copy.read_bytes()
        for data, words in ((b"", "it is no database of portal, or an empty one"),
                            (b"no database" * 99, "file is not a database"),
                            (whole[:8192] + bytes(len(whole) - 8192), "malformed"), (foreign, "it is no database of portal"),
                            ("UPDATE portal_head SET layout = 7", "its schema version is 7, and 1 to 6 can be read"),
                            ("DROP TABLE portal_grants", "no such table")):
            with self.subTest(words=words, data=data[:30]):
                self.book.write_bytes(data if isinstance(data, bytes) else b"" if data == foreign else whole)
                if isinstance(data, str):
                    with contextlib.closing(sqlite3.connect(self.book)) as base:
                        base.executescript(data)
                text, lists = self.run_restore()
                self.assertIn("what this undid is not known", text)
                self.assertIn(words, text)
                self.assertEqual(lists, [])

    def test_a_disk_without_room_for_reading_hinders_no_restore(self) -> None:
        """With a `cp` that has room for the copy alone."""
        make_database(self.book, 4, LATER)
        make_database(self.copy, 5)
        stub(self.folder, "cp", 'case "$*" in *replaced.db) exit 1 ;; esac\nexec /bin/cp "$@"')
        text, lists = self.run_restore()
        self.assertIn("what this undid is not known", text)
        self.assertEqual((lists, list(self.folder.glob(".restore-*"))), ([], []))

    def test_a_log_without_its_database_is_said(self) -> None:
        make_database(self.copy, 5)
        pathlib.Path(f"{self.book}-wal").write_bytes(b"a log")
        self.assertIn("what this undid is not known", self.run_restore()[0])

    def test_a_damaged_database_is_listed_as_far_as_it_can_be_read(self) -> None:
        """With a row that SQLite's check finds to be wrong."""
        make_database(self.copy, 5)
        make_database(self.book, 4, LATER, "CREATE TABLE spare (x INTEGER); INSERT INTO spare VALUES (NULL);"
                      "PRAGMA writable_schema = ON; UPDATE sqlite_master SET sql = 'CREATE TABLE spare (x INTEGER NOT NULL)'"
                      " WHERE name = 'spare'")
        text, lists = self.run_restore()
        self.assertIn("sold 2 (8.00)", text)
        self.assertIn("more may be undone: what was there before is damaged: NULL value in spare.x", text)
        self.assertEqual([len(path.read_text().splitlines()) for path in lists], [6])

    def test_a_copy_that_has_all_of_it_undoes_nothing(self) -> None:
        make_database(self.book, 4)
        make_database(self.copy, 4, LATER)
        self.assertIn("sold 0 (0.00), refunded 0 (0.00), redeemed 0 (0.00)\n", self.run_restore()[0])


@needs("procps")
class UndoneByTheProgram(Case):
    """With the program of FIELD_PORTAL, else the shipped one where that runs, since the stand-in has other tables."""

    def setUp(self) -> None:
        folder = self.enterContext(tempfile.TemporaryDirectory())
        self.portal, shipped = os.environ.get("FIELD_PORTAL", ""), f"{FIELD.parent}/deb/shipped {folder}/portal"
        line = f"{shipped} && {folder}/portal --version"
        if not self.portal and subprocess.run(line, shell=True, capture_output=True).returncode == 0:
            self.portal = f"{folder}/portal"

    def takings(self, desk: DeskProcess, book: pathlib.Path) -> list[int]:
        """What the program's takings have in all: vouchers sold, hundredths, vouchers refunded, hundredths."""
        days = [str(datetime.date.today() + datetime.timedelta(days)) for days in (-2, 2)]
        words = [*shlex.split(self.portal), "takings", *days, "--db", str(book), "--settings", str(desk.settings)]
        done = subprocess.run(words, capture_output=True, text=True, check=True)
        total, = (line.split()[1:] for line in done.stdout.splitlines() if line.startswith("total"))
        return [int(word.replace(".", "")) for word in total]

    def refund(self, book: pathlib.Path, code: str) -> int:
        with DeskProcess(book, self.portal) as desk:
            return int(desk.desk.request_json(Routes.REFUND, body={"code": code})["amount"])

    def test_a_restore_undoes_what_the_program_counts(self) -> None:
        """A refund, a redemption of one of three uses, and two sales, one of a voucher that was issued since the copy. Money is
        as the takings of both databases differ, and the redemption's as what the program pays back in each."""
        if not self.portal:
            return
        with DeskProcess(portal=self.portal) as desk:
            desk.load()
            refunded, unsold = desk.issue_codes("hour", "b1", 2)
            redeemed, = desk.sell_codes("gigabyte", "b2")
            desk.desk.request_json(Routes.SELL, body={"code": refunded})
            copy = self.make_copy(desk)
            desk.desk.request_json(Routes.REFUND, body={"code": refunded})
            desk.desk.request_json(Routes.REDEEM, body={"code": redeemed}, device="02:00:00:00:00:01")
            desk.desk.request_json(Routes.SELL, body={"code": unsold})
            issued, = desk.sell_codes("day", "b3")
            self.end(desk)
            systemctl(desk.folder, "inactive")
            there = files(desk.folder)
            done = self.restore(desk, "--portal", self.portal, copy, desk.book, folder=desk.folder)
            self.assertEqual((done.returncode, done.stderr), (0, ""))
            aside, = desk.folder.glob("book.db.before-*")
            before = aside / "book.db"
            self.assertTrue(files(aside) == there)      # (the difference of two databases is long)
            sold, sales, refunds, money = (a - b for a, b in zip(self.takings(desk, before), self.takings(desk, desk.book)))
            worth = self.refund(desk.book, redeemed) - self.refund(before, redeemed)
            words = f"sold {sold} ({decimal(sales)}), refunded {refunds} ({decimal(money)}), redeemed 1 ({decimal(worth)})\n"
            self.assertIn(words, done.stdout)
            self.assertEqual((sold, sales, refunds, money, worth), (2, 1200, 1, 300, 167))
            with open(aside / "undone.csv", newline="") as file:
                rows = {(row["what"], row["code"], row["in the copy"]) for row in csv.DictReader(file)}
            self.assertEqual(rows, {("refunded", refunded, "sold"), ("redeemed", redeemed, "sold"), ("sold", unsold, "unsold"),
                                    ("sold", issued, "not issued")})


class Units(unittest.TestCase):
    def test_the_server_is_thawed_after_the_unit_however_that_ended(self) -> None:
        """`portal-backup` and its guard may both be killed; what comes after them is systemd's."""
        text = (FIELD / "units/portal-backup.service").read_text()
        after = re.findall(r"(?m)^ExecStopPost=(.*)$", text)
        self.assertTrue(after and after[0].startswith("-") and "systemctl thaw portal.service" in after[0], after)
        self.assertRegex(text, r"(?m)^TimeoutStartSec=[0-9]+min$")


class Logs(unittest.TestCase):
    def test_logs_are_in_a_folder_that_no_other_rotation_names(self) -> None:
        """Debian's nginx rotates /var/log/nginx/*.log; a file that two rotations name is rotated by neither."""
        folders = {str(pathlib.Path(path).parent) for name in (
            "guests/nginx-guests.conf", "counter/nginx-counter.conf", "counter/nginx-main.conf")
                   for path in re.findall(r"(?:access|error)_log (/\S+)", (FIELD / name).read_text())}
        rotated = re.findall(r"(?m)^(/\S+) \{", (FIELD / "units/logrotate.conf").read_text())
        folder_paths = re.findall(r"(?m)^d (/var/\S+) 0755 ", (FIELD / "units/tmpfiles.conf").read_text())
        self.assertEqual((folders, rotated, folder_paths), ({"/var/log/portal"}, ["/var/log/portal/*.log"], ["/var/log/portal"]))


if __name__ == "__main__":
    unittest.main()
