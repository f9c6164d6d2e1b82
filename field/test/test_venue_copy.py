"""A copy of a whole venue, and the machine that becomes that venue from it alone."""

from __future__ import annotations

import contextlib
import os
import pathlib
import re
import shlex
import shutil
import sqlite3
import subprocess
import sys
import tarfile
import tempfile
import unittest
from collections.abc import Iterator
from unittest import mock

from desk_process import FIELD, PORTAL, DeskProcess
from needs import needs

from portal_field.backup import venue_copy, venue_restore
from portal_field.backup.copies import BadCopy, InUse
from portal_field.backup.venue_state import FOLDERS
from portal_field.counter.journal import Act, Journal
from portal_field.counter.receipt_numbers import Till
from portal_field.settings.maker import paths_elsewhere
from portal_field.settings.venue import BadSettings, Field

SAMPLE = (FIELD / "settings/field.toml").read_text()
TOKEN = "a-token-of-the-venue\n"
Done = subprocess.CompletedProcess[str]


def rows(path: pathlib.Path) -> list[str]:
    """The rows of the table that `make_state` makes."""
    with contextlib.closing(sqlite3.connect(path)) as base:
        return [row[0] for row in base.execute("SELECT words FROM kept")]


def make_state(path: pathlib.Path, mode: str = "DELETE") -> None:
    """A database as a part keeps one, with a row that names its file."""
    path.parent.mkdir(parents=True, exist_ok=True)
    with contextlib.closing(sqlite3.connect(path)) as base:
        base.executescript(f"PRAGMA journal_mode = {mode}; CREATE TABLE kept (words TEXT); "
                           f"INSERT INTO kept VALUES ('{path.parent.name}/{path.name}')")


class Listed(unittest.TestCase):
    """The list of what is kept is complete."""

    def test_each_state_directory_of_a_unit_is_in_the_list(self) -> None:
        units = [*FIELD.glob("units/*"), *FIELD.glob("*/units/*"), *(FIELD.parent / "deb").glob("*.conf")]
        named = {word for path in units for line in re.findall(r"(?m)^StateDirectory=(.+)$", path.read_text())
                 for word in line.split()}
        self.assertEqual(named, set(FOLDERS))

    def test_each_file_below_var_lib_that_the_kit_names_is_in_the_list(self) -> None:
        """By the names in the programs and the units."""
        texts = [path.read_text() for path in (*FIELD.glob("portal_field/**/*.py"), *FIELD.glob("units/*"))]
        named = {(folder, file) for text in texts for folder, file in
                 re.findall(r"var/lib/(portal[a-z-]*)/([\w.-]*\w)", text)}
        self.assertIn(("portal-give", "given.db"), named)
        for folder, file in named:
            self.assertTrue(file in FOLDERS[folder].kept or file in FOLDERS[folder].made_again, (folder, file))


class Case(unittest.TestCase):
    """A venue below a folder, and a machine below another one."""

    def setUp(self) -> None:
        self.place = pathlib.Path(self.enterContext(tempfile.TemporaryDirectory()))
        self.venue, self.machine, self.scratch = (self.place / name for name in ("venue", "machine", "scratch"))
        (self.venue / "var/lib/portal").mkdir(parents=True)
        self.desk = self.enterContext(DeskProcess(self.venue / "var/lib/portal/book.db"))
        self.desk.load()
        self.code, = self.desk.sell_codes("hour", "b1")
        for folder in (self.machine / "var/lib/portal", self.scratch, self.venue / "etc/portal/credentials",
                       self.venue / "etc/letsencrypt/live"):
            folder.mkdir(parents=True)
        (self.venue / "etc/portal/portal.toml").write_text(self.desk.settings.read_text())
        (self.venue / "etc/portal/clerks.toml").write_text("[anna]\n")
        secret = self.venue / "etc/portal/credentials/desk_token"
        secret.write_text(TOKEN)
        secret.chmod(0o600)
        (self.venue / "etc/letsencrypt/cert.pem").write_text("a certificate\n")
        (self.venue / "etc/letsencrypt/live/cert.pem").symlink_to("../cert.pem")
        (self.venue / "etc/portal/backup.toml").write_text('key = ""\npaths = ["/etc/letsencrypt", "/srv/none.png"]\n')
        for name, file in self.state():
            make_state(self.venue / "var/lib" / name / file)

    def state(self) -> Iterator[tuple[str, str]]:
        """The databases that parts keep, less the servers', with a venue by name."""
        for name, folder in FOLDERS.items():
            yield from ((name.replace("%i", "north"), file.replace("%i", "north"))
                        for file in folder.kept if file.endswith(".db") and file != "book.db")

    def backup(self, env: dict[str, str] | None = None) -> Done:
        """Makes a copy, as the nightly unit does."""
        words = ["--pid", self.desk.job.pid, "--portal", PORTAL, "--check", self.desk.settings, "--root", self.venue,
                 "--whole", self.place / "whole", self.desk.book, self.place / "copies"]
        line = [sys.executable, str(FIELD / "portal-backup"), *map(str, words)]
        return subprocess.run(line, capture_output=True, text=True, env=env)

    def copy(self) -> pathlib.Path:
        """The newest whole copy, made now."""
        done = self.backup()
        self.assertEqual((done.returncode, done.stderr), (0, ""))
        return venue_copy.copies_in(self.place / "whole")[-1]

    def stay(self) -> None:
        """Ends the venue, and puts what its parts keep onto the machine."""
        self.desk.job.kill()
        self.desk.job.wait()
        shutil.copytree(self.venue / "var", self.machine / "var", dirs_exist_ok=True)

    def restore(self, copy: pathlib.Path, key: pathlib.Path | None = None) -> list[str]:
        """Restores onto the machine. Users of the package are not on this one."""
        self.owners: dict[str, str] = {}

        def chown(path: object, user: str, group: str) -> None:
            self.owners[pathlib.Path(str(path)).resolve().name] = user

        with tempfile.TemporaryDirectory(dir=self.scratch) as scratch, mock.patch("shutil.chown", chown):
            return venue_restore.restore_venue(copy, key, shlex.split(PORTAL), pathlib.Path(scratch), self.machine)


@needs("procps")
class Whole(Case):
    def test_a_machine_becomes_the_venue_from_the_copy_alone(self) -> None:
        copy = self.copy()
        self.desk.job.kill()
        self.assertEqual(copy.stat().st_mode & 0o777, 0o600)
        self.assertEqual(copy.parent.stat().st_mode & 0o777, 0o700)
        subprocess.run(["sha256sum", "--check", "--status", f"{copy.name}.sha256"], cwd=copy.parent, check=True)
        self.assertEqual(self.restore(copy)[-1], "next: portal-setup")
        for folder, file in self.state():
            path = self.machine / "var/lib" / folder / file
            self.assertEqual(rows(path), [f"{path.parent.name}/{path.name}"])
        secret = self.machine / "etc/portal/credentials/desk_token"
        self.assertEqual((secret.read_text(), secret.stat().st_mode & 0o777), (TOKEN, 0o600))
        self.assertEqual((self.machine / "etc/portal/clerks.toml").read_text(), "[anna]\n")
        link = self.machine / "etc/letsencrypt/live/cert.pem"
        self.assertEqual((link.is_symlink(), link.read_text()), (True, "a certificate\n"))
        self.assertEqual(self.owners.get("portal-give"), "portal-give")
        with DeskProcess(self.machine / "var/lib/portal/book.db") as again:
            self.assertIn("sold", again.voucher(self.code))

    def test_no_number_of_a_receipt_is_given_again(self) -> None:
        """Those given after the copy nobody knows: the new machine begins a series with another letter."""
        path = self.venue / "var/lib/portal-counter/journal.db"
        path.unlink()
        till = Till("form", "cash", "", lambda plan: None)
        Journal(path).add("anna", "x", [Act("sell", "s1", "done", "b1", "hour", 1, 300)], till)
        copy = self.copy()
        Journal(path).add("anna", "x", [Act("sell", "s2", "done", "b1", "hour", 1, 300)], till)
        self.restore(copy)
        placed = self.machine / "var/lib/portal-counter/journal.db"
        self.assertEqual(placed.stat().st_mode & 0o777, path.stat().st_mode & 0o777, "its group reads it as before")
        again = Journal(placed)
        again.add("anna", "x", [Act("sell", "s3", "done", "b1", "hour", 1, 300)], till)
        with contextlib.closing(sqlite3.connect(again.path)) as base:
            numbers = base.execute("SELECT series, place FROM receipts ORDER BY number").fetchall()
        self.assertEqual(numbers, [("", 1), ("A", 1)])

    def test_the_settings_that_a_machine_has_are_put_aside(self) -> None:
        (self.machine / "etc/portal").mkdir(parents=True)
        (self.machine / "etc/portal/field.toml").write_text("of the package")
        copy = self.copy()
        self.assertIn("the settings that were there are in", self.restore(copy)[1])
        kept = [path.read_text() for path in (self.machine / "etc").glob("portal.before-*/field.toml")]
        self.assertEqual(kept, ["of the package"])
        self.assertFalse((self.machine / "etc/portal/field.toml").exists())

    def test_a_machine_that_is_a_venue_is_no_new_one(self) -> None:
        copy, settings = self.copy(), self.machine / "etc/portal/portal.toml"
        self.stay()
        settings.parent.mkdir(parents=True)
        settings.write_text("of this machine")
        with self.assertRaisesRegex(InUse, "has a venue already"):
            self.restore(copy)
        self.assertEqual(settings.read_text(), "of this machine")

    def test_a_copy_that_was_changed_is_refused_and_nothing_is_done(self) -> None:
        copy = self.copy()
        good = copy.read_bytes()
        for place in (len(good) // 2, len(good) - 8):      # within the files, and in gzip's own sum of them
            data = bytearray(good)
            data[place] ^= 1
            copy.write_bytes(data)
            for _ in range(2):      # by its sum, and without one
                with self.assertRaises(BadCopy):
                    self.restore(copy)
                pathlib.Path(f"{copy}.sha256").unlink(missing_ok=True)
        self.assertEqual(sorted(path.name for path in self.machine.rglob("*")), ["lib", "portal", "var"])

    def test_the_sum_beside_a_copy_counts(self) -> None:
        copy = self.copy()
        pathlib.Path(f"{copy}.sha256").write_text(f"{'0' * 64}  {copy.name}\n")
        with self.assertRaisesRegex(BadCopy, "its SHA-256 is not that of"):
            self.restore(copy)

    def test_a_member_that_leads_elsewhere_is_refused(self) -> None:
        for name, link in (("../evil", ""), ("/evil", ""), ("etc/portal/a", "/tmp"), ("dev", "")):
            copy = self.scratch / "venue-x.tar.gz"
            with tarfile.open(copy, "w:gz") as tar:
                member = tarfile.TarInfo(name)
                member.type = tarfile.SYMTYPE if link else tarfile.CHRTYPE if name == "dev" else tarfile.REGTYPE
                member.linkname = link
                tar.addfile(member)
                if link:
                    tar.addfile(tarfile.TarInfo(f"{name}/below"))
            with self.assertRaisesRegex(BadCopy, "which no copy of a venue has"):
                self.restore(copy)

    def test_what_a_part_keeps_damaged_is_reported_and_no_whole_copy_is_made(self) -> None:
        (self.venue / "var/lib/portal-give/given.db").write_bytes(b"no database" * 99)
        done = self.backup()
        self.assertEqual((done.returncode, "given.db is not copied" in done.stderr), (1, True), done.stderr)
        self.assertTrue(pathlib.Path(done.stdout.strip()).exists())
        self.assertEqual(list((self.place / "whole").iterdir()), [])

    def test_the_newest_are_kept(self) -> None:
        copies = [self.copy() for _ in range(2)]
        for day in range(venue_copy.KEPT):
            (copies[0].parent / f"venue-2020010{day}T000000.0Z.tar.gz").write_bytes(b"")
        copies.append(self.copy())
        left = venue_copy.copies_in(copies[0].parent)
        self.assertEqual((len(left), left[-3:]), (venue_copy.KEPT, copies))

    def test_a_database_with_a_log_that_nobody_has_open_is_copied_from_a_folder_that_is_read_only(self) -> None:
        path, goal = self.place / "ro/radacct.db", self.place / "goal"
        make_state(path, "WAL")
        with mock.patch.object(venue_copy, "copy_open", side_effect=BadCopy("unable to open database file")):
            venue_copy.copy_state(path, goal)
        self.assertEqual(rows(goal), ["ro/radacct.db"])
        pathlib.Path(f"{path}-wal").write_bytes(b"what was written last")
        with mock.patch.object(venue_copy, "copy_open", side_effect=BadCopy("unable to open")):
            self.assertRaises(BadCopy, venue_copy.copy_state, path, goal)


@needs("procps")
class ByName(Case):
    """A machine that has a venue by name beside its own."""

    def setUp(self) -> None:
        super().setUp()
        self.north = self.venue / "var/lib/portal-venues/north/book.db"
        self.north.parent.mkdir(parents=True)
        self.north.write_bytes(b"its server writes here")
        settings = self.venue / "etc/portal/venues/north/portal.toml"
        settings.parent.mkdir(parents=True)
        settings.write_text(self.desk.settings.read_text())

    def copy_of_north(self) -> None:
        """Its nightly copy: one of the other server's database, which is one as good."""
        copies = self.venue / "var/backups/portal-venues/north"
        line = [sys.executable, FIELD / "portal-backup", "--pid", self.desk.job.pid, self.desk.book, copies]
        subprocess.run([str(word) for word in line], check=True, capture_output=True)
        (copies / "20200101T000000.0Z.db").write_bytes(b"an old one")

    def test_a_machine_gets_it_as_of_its_newest_copy(self) -> None:
        self.copy_of_north()
        lines = self.restore(self.copy())
        self.assertIn("and the venues north, ", lines[-2])
        again = self.machine / "var/lib/portal-venues/north/book.db"
        self.assertEqual(self.owners.get("north"), "portal-radius")     # its last folder, that of RADIUS
        self.assertEqual(again.parent.stat().st_mode & 0o777, 0o700)
        self.assertEqual(again.parent.parent.stat().st_mode & 0o777, 0o755)
        self.assertEqual((self.machine / "var/lib/portal-venues-counter").stat().st_mode & 0o777, 0o700)
        with DeskProcess(again) as server:
            self.assertIn("sold", server.voucher(self.code))

    def test_without_a_copy_of_it_no_whole_copy_is_made_and_that_is_said(self) -> None:
        done = self.backup()
        self.assertEqual((done.returncode, "start portal-venues-backup" in done.stderr), (1, True), done.stderr)
        self.assertEqual(list((self.place / "whole").iterdir()), [])

    def test_a_damaged_one_is_refused_and_nothing_is_done(self) -> None:
        self.copy_of_north()
        for path in (self.venue / "var/backups/portal-venues/north").glob("*.db"):
            make_state(path.with_suffix(".other"))
            path.with_suffix(".other").replace(path)
        copy = self.copy()
        with self.assertRaisesRegex(BadCopy, "of the venue north: "):
            self.restore(copy)
        self.assertFalse((self.machine / "etc").exists())

    def test_a_machine_that_has_one_is_no_new_one(self) -> None:
        self.copy_of_north()
        book = self.machine / "var/lib/portal-venues/south/book.db"
        settings = self.machine / "etc/portal/venues/south/portal.toml"
        for path in (book, settings):
            path.parent.mkdir(parents=True)
            path.write_bytes(b"of another venue")
        with self.assertRaisesRegex(InUse, "has a venue already"):
            self.restore(self.copy())


@needs("procps")
class Purged(Case):
    """A machine on which the package was purged, and installed again: a database is there, and no settings."""

    def test_what_is_there_is_later_than_the_copy_and_stays(self) -> None:
        copy = self.copy()
        later, = self.desk.sell_codes("hour", "b2")
        self.stay()
        given = self.machine / "var/lib/portal-give/given.db"
        given.unlink()
        schema = self.machine / "var/lib/portal/schema"
        schema.write_text("as the package wrote it")
        lines = self.restore(copy)
        book = self.machine / "var/lib/portal/book.db"
        self.assertIn(f"{book} was there, and stays", lines)
        self.assertEqual((rows(given), schema.read_text()), (["portal-give/given.db"], "as the package wrote it"))
        self.assertEqual((self.machine / "etc/portal/credentials/desk_token").read_text(), TOKEN)
        with DeskProcess(book) as again:
            for code in (self.code, later):
                self.assertIn("sold", again.voucher(code))

    def test_a_database_that_does_not_go_on_from_the_copy_is_refused_and_nothing_is_done(self) -> None:
        self.stay()
        older = self.machine / "var/lib/portal/book.db"
        before = older.read_bytes()
        with DeskProcess(self.venue / "var/lib/portal/book.db") as self.desk:
            self.desk.sell_codes("hour", "b2")
            copy = self.copy()
        with self.assertRaisesRegex(BadCopy, "is of another venue, or older than the copy"):
            self.restore(copy)
        self.assertEqual((older.read_bytes(), (self.machine / "etc").exists()), (before, False))
        older.with_name("book.db-wal").unlink(missing_ok=True)
        older.write_bytes(b"damaged")
        with self.assertRaisesRegex(BadCopy, "book.db does not check"):
            self.restore(copy)


@needs("age", "procps")
class Sealed(Case):
    """Copies that are encrypted to a key of age."""

    def setUp(self) -> None:
        super().setUp()
        self.key, self.other = self.make_key("key"), self.make_key("other")
        public = re.search("public key: (age1.*)", self.key.read_text())
        assert public
        settings = self.venue / "etc/portal/backup.toml"
        settings.write_text(settings.read_text().replace('""', f'"{public[1]}"'))

    def make_key(self, name: str) -> pathlib.Path:
        """A file with a new pair of keys, as the documents make it."""
        path = self.place / name
        subprocess.run(["age-keygen", "-o", path], check=True, capture_output=True)
        return path

    def drill(self, *words: object) -> Done:
        line = [sys.executable, str(FIELD / "portal-restore"), "--drill", "--portal", PORTAL, *map(str, words)]
        return subprocess.run(line, capture_output=True, text=True)

    def test_it_is_read_with_the_key_alone(self) -> None:
        copy = self.copy()
        self.assertEqual([path.name for path in sorted(copy.parent.iterdir())], [copy.name, f"{copy.name}.sha256"])
        self.assertTrue(copy.name.endswith(".tar.gz.age"), copy.name)
        self.assertNotIn(TOKEN.encode(), copy.read_bytes())
        for key, words in ((None, "it is encrypted: give --key"), (self.other, "the key does not open it")):
            with self.assertRaisesRegex(BadCopy, words):
                self.restore(copy, key)
        self.restore(copy, self.key)
        self.assertEqual((self.machine / "etc/portal/credentials/desk_token").read_text(), TOKEN)

    def test_a_drill_proves_that_the_key_works(self) -> None:
        copy = self.copy()
        done = self.drill("--key", self.key, "--folder", copy.parent)
        self.assertEqual((done.returncode, done.stderr), (0, ""))
        self.assertRegex(done.stdout, rf"{copy.name} restores and checks.*\n(.*\n)*.*3\.00")
        done = self.drill("--key", self.other, "--folder", copy.parent)
        self.assertEqual((done.returncode, "the key does not open it" in done.stderr), (1, True))

    def test_steps_are_said_where_a_terminal_listens(self) -> None:
        copy = self.copy()
        line = [sys.executable, FIELD / "portal-restore", "--drill", "--portal", PORTAL, "--key", self.key, copy]
        parent, child = os.openpty()
        with open(parent, "rb", buffering=0) as heard:
            done = subprocess.run([str(word) for word in line], stderr=child, stdout=subprocess.PIPE, text=True)
            os.close(child)
            words = heard.read(9999).decode()
        self.assertEqual(done.returncode, 0)
        self.assertRegex(words, r"unpacking .*\.\.\r\nSQLite checks the copy \.\.\r\nthe program checks the copy \.\.\r\n")
        self.assertEqual(self.drill("--key", self.key, copy).stderr, "")

    def test_without_age_no_secret_is_left_unencrypted(self) -> None:
        for name in ("cp", "kill", "python3", "sh"):
            (self.scratch / name).symlink_to(f"/bin/{name}")
        done = self.backup({**os.environ, "PATH": str(self.scratch)})
        self.assertEqual((done.returncode, "package age is not installed" in done.stderr), (1, True), done.stderr)
        self.assertEqual(list((self.place / "whole").iterdir()), [])


class Settings(unittest.TestCase):
    """What field.toml says of the copies."""

    def field(self, *lines: str) -> Field:
        """The sample's settings with lines in place of others."""
        text = SAMPLE
        for line in lines:
            key = line.partition(" ")[0]
            text = re.sub(rf"(?m)^{key} = .*$", lambda _: line, text)
        return Field.read(text)

    def test_keys(self) -> None:
        for key in ("", "age1" + "q" * 58, "ssh-ed25519 " + "A" * 68 + " owner@laptop"):
            self.assertEqual(self.field(f'backup_key = "{key}"').backup_key, key)
        for key in ("age1short", "AGE-SECRET-KEY-1" + "Q" * 58, "--output=/etc/passwd", "ssh-dss " + "A" * 68):
            self.assertRaises(BadSettings, self.field, f'backup_key = "{key}"')

    def test_the_certificate_of_a_client_is_copied_with_its_account(self) -> None:
        self.assertEqual(paths_elsewhere(self.field()), [])
        live = "/etc/letsencrypt/live/wifi.example"
        field = self.field(f'cert = "{live}/fullchain.pem"', f'key = "{live}/privkey.pem"', 'logo = "/srv/logo.png"')
        self.assertEqual(paths_elsewhere(field), ["/etc/letsencrypt", "/srv/logo.png"])
        field = self.field('cert = "/etc/ssl/a.pem"', 'key = "/etc/portal/tls/key.pem"')
        self.assertEqual(paths_elsewhere(field), ["/etc/ssl/a.pem"])


if __name__ == "__main__":
    unittest.main()
