"""What root reads and writes below a folder of a service, whatever that has planted there."""

from __future__ import annotations

import contextlib
import io
import os
import pathlib
import stat
import subprocess
import sys
import tempfile
import unittest
from collections.abc import Callable
from unittest import mock

from desk_process import FIELD
from needs import ROOT, needs
from planted import KEPT, KINDS, NOBODY, outside_file, plant, service_folder, within
from schema_versions import make_database

from portal_field.backup import copies, restore, venue_copy, venue_restore
from portal_field.backup.undone_entries import UndoneEntries, write_list
from portal_field.lib import owned_files
from portal_field.lib.machine_time import Notes
from portal_field.lib.owned_files import NoPlainFile
from portal_field.server.right_time import Unreadable, last_moment

LIMIT = 120     # seconds for a test, whose files go to the disk


class Case(unittest.TestCase):
    def setUp(self) -> None:
        self.place = pathlib.Path(self.enterContext(tempfile.TemporaryDirectory()))
        self.folder, self.outside = service_folder(self.place), outside_file(self.place)
        self.path = self.folder / "book.db"
        self.enterContext(within(LIMIT))

    def tearDown(self) -> None:
        self.assertEqual(self.outside.read_text(), KEPT)
        self.assertFalse((self.place / "nothing").exists())

    def fault_of(self, call: Callable[..., object], *words: object, **more: object) -> str:
        """What a call raises, by its name; nothing where it does not."""
        try:
            call(*words, **more)
        except (OSError, copies.BadCopy) as fault:
            return type(fault).__name__
        return ""

    def is_written(self, path: pathlib.Path, text: str) -> None:
        """There is a plain file with this text, its folder's owner's alone."""
        found, owner = path.lstat(), self.folder.stat()
        self.assertTrue(stat.S_ISREG(found.st_mode), path)
        self.assertEqual((path.read_text(), found.st_mode & 0o777, found.st_uid), (text, 0o600, owner.st_uid))


class Read(Case):
    def test_nothing_but_a_plain_file_is_read(self) -> None:
        for kind in KINDS:
            with self.subTest(kind=kind):
                plant(kind, self.path, self.outside)
                self.assertEqual(self.fault_of(owned_files.read, self.path), "NoPlainFile")
                self.assertFalse(owned_files.is_plain(self.path))
        self.path.unlink()
        self.path.mkdir()
        self.assertEqual(self.fault_of(owned_files.read, self.path), "NoPlainFile")

    def test_a_plain_file_is_read_up_to_a_limit(self) -> None:
        self.path.write_bytes(b"6\n")
        self.assertEqual((owned_files.read(self.path), owned_files.is_plain(self.path)), (b"6\n", True))
        os.truncate(self.path, 1 << 40)
        self.assertEqual(len(owned_files.read(self.path)), owned_files.MOST)
        self.path.unlink()
        self.assertRaises(FileNotFoundError, owned_files.read, self.path)
        self.assertFalse(owned_files.is_plain(self.path))

    def test_a_link_counts_in_a_folder_of_ones_own_alone(self) -> None:
        """An owner may have put the folder of the state on another disk."""
        link, folder = self.place / "link", self.place / "elsewhere"
        link.symlink_to(self.outside)
        folder.symlink_to(self.folder)
        self.path.write_bytes(b"6\n")
        self.assertEqual(self.fault_of(owned_files.read, link), "")
        self.assertEqual(owned_files.read(link).decode(), KEPT)
        self.assertEqual(owned_files.read(folder / "book.db"), b"6\n")

    def test_a_folder_below_that_is_a_link_is_not_entered(self) -> None:
        (self.folder / "north").symlink_to(self.place)
        self.assertRaises(OSError, owned_files.read, self.folder / "north" / self.outside.name)
        self.assertRaises(OSError, owned_files.put, self.folder / "north" / self.outside.name, b"changed")


class Written(Case):
    def test_nothing_is_written_through_what_is_there(self) -> None:
        for kind in KINDS:
            with self.subTest(kind=kind):
                for name in ("schema", ".schema.part"):
                    plant(kind, self.folder / name, self.outside)
                self.assertEqual(self.fault_of(owned_files.put, self.folder / "schema", b"6\n"), "")
                self.is_written(self.folder / "schema", "6\n")
                self.assertEqual(os.listdir(self.folder), ["schema"])

    def test_the_names_that_go_are_those_of_the_file_of_before(self) -> None:
        for name in ("book.db", "book.db-wal", "kept"):
            (self.folder / name).write_text("before")
        with open(self.outside, "rb") as file:
            owned_files.put(self.path, file, "book.db-wal", "book.db-shm")
        self.is_written(self.path, KEPT)
        self.assertEqual(sorted(os.listdir(self.folder)), ["book.db", "kept"])

    def test_what_cannot_be_written_changes_nothing(self) -> None:
        for name in ("book.db", "book.db-wal"):
            (self.folder / name).write_text("before")
        with open(self.place / "not-to-be-read", "wb") as file:
            fault = self.fault_of(owned_files.put, self.path, file, "book.db-wal")
        kept = {path.name: path.read_text() for path in self.folder.glob("book.db*")}
        self.assertEqual(kept, {"book.db": "before", "book.db-wal": "before"})
        self.assertEqual(fault, "OSError")

    def test_the_packages_script_writes_by_the_command(self) -> None:
        plant("link", self.folder / "schema", self.outside)
        for name, status, word in (("schema", 0, ""), ("none/schema", 1, "none/schema: No such file or directory")):
            words = [sys.executable, "-P", "-m", "portal_field.lib.owned_files", self.folder / name]
            done = subprocess.run([str(word) for word in words], input="6\n", text=True, stderr=subprocess.PIPE, cwd="/",
                                  env={**os.environ, "PYTHONPATH": str(FIELD)})
            self.assertEqual((done.returncode, word in done.stderr), (status, True), done.stderr)
        self.is_written(self.folder / "schema", "6\n")


class Copied(Case):
    """The copy of a backup, and that of before an upgrade."""

    def test_a_database_that_is_no_plain_file_is_no_copy_and_hinders_no_upgrade(self) -> None:
        goal = self.place / "copy.db"
        for kind in KINDS:
            for name in ("book.db", "book.db-wal"):
                with self.subTest(kind=kind, name=name):
                    make_database(self.place / "good.db", 6)
                    (self.place / "good.db").replace(self.path)
                    plant(kind, self.folder / name, self.outside)
                    said = io.StringIO()
                    self.assertRaises((NoPlainFile, copies.BadCopy), copies.copy_both, self.path, goal)
                    with mock.patch("sys.argv", ["", str(self.path), str(goal)]), contextlib.redirect_stderr(said):
                        status = copies.main()
                    is_there = kind != "link to nothing" or name != "book.db"
                    self.assertEqual((status, "no plain file" in said.getvalue()), (int(not is_there), is_there))
                    self.assertFalse(goal.exists() and is_there)
                    goal.unlink(missing_ok=True)
                    (self.folder / name).unlink()

    def test_what_a_part_keeps_is_read_if_it_is_a_plain_file(self) -> None:
        goal = self.place / "copy"
        for kind in KINDS:
            for name in ("given.db", "given.db-wal"):
                with self.subTest(kind=kind, name=name):
                    make_database(self.place / "good.db", 6)
                    (self.place / "good.db").replace(self.folder / "given.db")
                    plant(kind, self.folder / name, self.outside)
                    self.assertEqual(self.fault_of(venue_copy.copy_state, self.folder / "given.db", goal), "NoPlainFile")
                    (self.folder / name).unlink()
                    goal.unlink(missing_ok=True)

    def test_the_last_moment_is_that_of_a_plain_file(self) -> None:
        for kind in KINDS.keys() - {"link to nothing"}:
            with self.subTest(kind=kind):
                plant(kind, self.path, self.outside)
                self.assertRaises(Unreadable, last_moment, self.path)


class Restored(Case):
    def setUp(self) -> None:
        super().setUp()
        self.copy = self.place / "restored.db"
        make_database(self.copy, 5)

    def stops_the_server(self) -> None:
        with restore.server_stopped(self.path, "no.service"):
            pass

    def test_a_copy_takes_the_place_of_whatever_is_there(self) -> None:
        for kind in KINDS:
            with self.subTest(kind=kind):
                for name in ("book.db", ".book.db.part", "book.db-wal", "schema", ".schema.part"):
                    plant(kind, self.folder / name, self.outside)
                self.assertEqual(self.fault_of(self.stops_the_server), "")
                aside = restore.keep_what_is_there(self.path)
                restore.replace(self.path, self.copy)
                self.assertEqual(sorted(os.listdir(aside)), ["book.db", "book.db-wal"])
                self.assertEqual(self.path.read_bytes(), self.copy.read_bytes())
                self.assertEqual(self.path.lstat().st_uid, self.folder.stat().st_uid)
                self.is_written(self.folder / "schema", "5\n")
                self.assertEqual(sorted(os.listdir(self.folder)), sorted(["book.db", "schema", aside.name]))
                for path in (*aside.iterdir(), *self.folder.glob("[!b]*")):
                    path.unlink()
                aside.rmdir()

    def test_a_folder_that_was_exchanged_gets_no_list(self) -> None:
        """One for root alone, since it has codes."""
        aside = restore.keep_what_is_there(self.path)
        aside.rename(self.folder / "elsewhere")
        aside.symlink_to(self.place)
        self.assertRaises(OSError, write_list, UndoneEntries([], ""), aside)
        aside.unlink()
        service_folder(self.folder, aside.name)
        self.assertEqual(self.fault_of(write_list, UndoneEntries([], ""), aside), "NoPlainFile")
        self.assertEqual([*self.place.glob("*.csv"), *aside.iterdir()], [])

    def test_a_new_machine_gets_its_files_over_what_is_there(self) -> None:
        """As a purge of the package may have left it."""
        kept = self.place / "venue/var/lib/portal-give/given.db"
        kept.parent.mkdir(parents=True)
        make_database(kept, 6)
        (self.place / "machine/var/lib").mkdir(parents=True)
        folder = service_folder(self.place / "machine/var/lib", "portal-give")
        venue = venue_restore.Venue(self.place / "venue", "1.0.0", ())
        for kind in KINDS:
            with self.subTest(kind=kind):
                for name in ("given.db", ".given.db.part"):
                    plant(kind, folder / name, self.outside)
                self.assertEqual(venue_restore.place_state(venue, self.place / "machine"), [])
                self.assertEqual((folder / "given.db").read_bytes(), kept.read_bytes())
                self.assertEqual(os.listdir(folder), ["given.db"])


@needs(ROOT)
class OfAnotherUser(Case):
    """What an ordinary user cannot set up: a folder that is really another user's."""

    def test_another_users_file_with_a_second_name_is_not_read(self) -> None:
        """A kernel may let anybody give a file a second name (fs.protected_hardlinks)."""
        os.link(self.outside, self.path)
        self.assertEqual(self.fault_of(owned_files.read, self.path), "NoPlainFile")
        own = self.folder / "own"
        own.write_text("6")
        os.chown(own, NOBODY, NOBODY)
        os.link(own, self.folder / "second")
        self.assertEqual(owned_files.read(own), b"6")

    def test_a_file_is_written_by_the_folders_owner(self) -> None:
        owned_files.put(self.path, b"6")
        told = self.path.lstat()
        self.assertEqual((told.st_uid, told.st_gid), (NOBODY, NOBODY))

    def test_a_restore_works_in_a_folder_that_no_service_changes(self) -> None:
        with restore.scratch_folder(self.folder) as scratch:
            self.assertNotEqual(scratch.parent, self.folder)
            self.assertEqual((scratch.lstat().st_mode & 0o777, scratch.lstat().st_uid), (0o700, 0))
            left = scratch.with_name(f"{restore.SCRATCH}left-by-a-restore-that-was-killed")
            left.mkdir()
        with restore.scratch_folder(self.folder):
            self.assertFalse(left.exists())
        self.assertFalse(scratch.exists())


class Noted(Case):
    def test_a_note_is_read_from_a_plain_file_and_written_over_whatever_is_there(self) -> None:
        notes = Notes(str(self.folder))
        for kind in KINDS:
            with self.subTest(kind=kind), mock.patch("threading.get_ident", lambda: 7):
                plant(kind, self.folder / "state", self.outside)
                self.assertEqual(notes.read("state"), {})
                plant(kind, self.folder / f".state.{os.getpid()}-7", self.outside)
                self.assertEqual(self.fault_of(notes.write, "state", why="x"), "")
                self.assertEqual(notes.read("state"), {"why": "x"})
                self.assertEqual(os.listdir(self.folder), ["state"])


if __name__ == "__main__":
    unittest.main()
