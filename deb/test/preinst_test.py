"""What the package looks at before its files are unpacked: a database's schema version, what others put on its tables,
room, and how long a migration takes. Its script runs over folders of this test."""

from __future__ import annotations

import contextlib
import os
import pathlib
import sqlite3

import pytest
from planted import KEPT, KINDS, outside_file, plant, within
from schema_versions import make_database
from tree import DEB, Done, output, run

pytestmark = pytest.mark.package
KNOWN = 6
SLOWER = "longer if it gets less than a fifth of a processor"
AN_INDEX = "CREATE INDEX vouchers_by_sale ON portal_vouchers (sold);"
A_TABLE = "CREATE TABLE gift (id INTEGER PRIMARY KEY, code TEXT REFERENCES {} (code));"
# What hinders nothing: an index that the program makes, tables of others, and what looks at tables of the program.
HARMLESS = """
CREATE INDEX portal_sessions_by_device ON portal_sessions (device, number);
CREATE TABLE guest (id INTEGER PRIMARY KEY, name TEXT UNIQUE, friend INTEGER REFERENCES guest (id));
CREATE INDEX guest_by_name ON guest (name);
CREATE VIEW sold AS SELECT code FROM portal_vouchers WHERE sold IS NOT NULL;
"""


class Venue:
    """Folders as a venue has them, and the script over them. `free`: the KiB that `df` says are free."""

    def __init__(self, folder: pathlib.Path) -> None:
        self.folder, self.copies, self.free = folder / "lib/portal", folder / "backups/portal", 1 << 30
        self.script, self.room = folder / "preinst", folder
        text = (DEB / "debian/preinst").read_text()
        for old, new in (("@SCHEMA@", str(KNOWN)), ("@VERSION@", "2.0.0"), ("/var/lib/", f"{folder}/lib/"),
                         ("/var/backups/", f"{folder}/backups/")):
            text = text.replace(old, new)
        self.script.write_text(text)
        (folder / "bin").mkdir()
        self.copies.mkdir(parents=True)

    def database(self, version: int, *more: str, place: str = "portal") -> pathlib.Path:
        """Makes a database of a schema version, with the file beside it that says so."""
        path = self.room / "lib" / place / "book.db"
        path.parent.mkdir(parents=True, exist_ok=True)
        make_database(path, version, *more)
        mark = path.parent if place == "portal" else path.parent.parent
        (mark / "schema").write_text(f"{version}\n")
        return path

    def run(self, *words: str) -> Done:
        """What the script says, with a `df` of this test."""
        df = self.room / "bin/df"
        df.write_text(f"#!/bin/sh\necho Avail\necho {self.free}\n")
        df.chmod(0o755)
        return run("sh", self.script, *(words or ("upgrade", "1.0.0")),
                   env={**os.environ, "PATH": f"{self.room}/bin:{os.environ['PATH']}"})

    def files(self) -> dict[str, bytes]:
        """All files below the database and the copies, by their paths."""
        return {str(path): path.read_bytes() for top in ("lib", "backups") for path in (self.room / top).rglob("*")
                if path.is_file()}


@pytest.fixture
def venue(tmp_path: pathlib.Path) -> Venue:
    return Venue(tmp_path)


def refused(venue: Venue, word: str) -> None:
    """The upgrade is refused with this word, and nothing is changed."""
    before, done = venue.files(), venue.run()
    assert done.returncode == 1 and word in done.stderr and "Nothing was changed" in done.stderr, (
        f"refused with its name: {word}  [{done.returncode}: {output(done)}]")
    assert venue.files() == before, "and no file is changed or left"


def taken(venue: Venue) -> str:
    """What an upgrade that is not refused says; nothing is changed by it."""
    before, done = venue.files(), venue.run()
    assert done.returncode == 0 and venue.files() == before, f"it is taken, and no file is changed  [{output(done)}]"
    return done.stderr


@pytest.mark.parametrize("version", (1, 2, 3, 4, 5))
def test_what_others_put_on_our_tables(venue: Venue, version: int) -> None:
    venue.database(version, AN_INDEX)
    refused(venue, "the index vouchers_by_sale is on portal_vouchers")
    (venue.folder / "book.db").unlink()
    venue.database(version, A_TABLE.format("portal_vouchers"))
    refused(venue, "the table gift refers to portal_vouchers")


def test_names_in_other_letters(venue: Venue) -> None:
    venue.database(4, A_TABLE.format("PORTAL_Vouchers"), AN_INDEX.replace("portal_vouchers", "Portal_VOUCHERS"))
    refused(venue, "the table gift refers to PORTAL_Vouchers")
    refused(venue, "the index vouchers_by_sale is on ")


def test_how_to_take_it_off(venue: Venue) -> None:
    path = venue.database(4, AN_INDEX)
    words = venue.run().stderr
    assert str(path) in words and "DROP INDEX" in words and '"An upgrade to schema version 6"' in words, (
        f"the database is named, and how to take an index off  [{words}]")


def test_what_is_in_the_log_alone(venue: Venue) -> None:
    path = venue.database(4)
    with contextlib.closing(sqlite3.connect(path)) as base:
        base.executescript(f"PRAGMA journal_mode = WAL; PRAGMA wal_autocheckpoint = 0; {AN_INDEX}")
        kept = {end: pathlib.Path(f"{path}{end}").read_bytes() for end in ("", "-wal")}
    for end, data in kept.items():
        pathlib.Path(f"{path}{end}").write_bytes(data)
    refused(venue, "the index vouchers_by_sale is on portal_vouchers")


def test_what_hinders_nothing(venue: Venue) -> None:
    venue.database(4, HARMLESS)
    assert "(schema version 6, 0 MB)" in taken(venue), "tables of others that do not refer to the program's are kept"


def test_no_migration(venue: Venue) -> None:
    with contextlib.closing(sqlite3.connect(venue.database(6))) as base:
        base.executescript(f"{AN_INDEX} {A_TABLE.format('portal_vouchers')}")
    assert taken(venue) == "", "a database of this schema version is not migrated, and nothing is said"


def test_later_version(venue: Venue) -> None:
    venue.database(6, "UPDATE portal_head SET layout = 7")
    (venue.folder / "schema").write_text("7\n")
    refused(venue, "has schema version 7, and this program knows none after 6")


@pytest.mark.parametrize(("version", "times"), ((4, 5), (5, 5), (6, 3)))
def test_room(venue: Venue, version: int, times: int) -> None:
    size = -(-venue.database(version).stat().st_size // 1024)
    venue.free = times * size + 2048 - 1
    refused(venue, f"{times} times the database and its log")
    venue.free += 1
    taken(venue)


def test_room_for_a_large_database(venue: Venue) -> None:
    os.truncate(venue.database(4), 150 << 20)
    venue.free = (5 * 150 + 45 * 130) * 1024 + 2048 - 1
    refused(venue, "5 times the database and its log, and 45 times what a database has beyond 20 MB")
    venue.free += 1
    taken(venue)


def test_venues_by_name(venue: Venue) -> None:
    venue.database(4, place="portal-venues/north")
    path = venue.database(4, AN_INDEX, place="portal-venues/south")
    refused(venue, str(path))
    path.unlink()
    assert f"in {path.parent.parent} anew" in taken(venue), "how long it takes is said of venues by name too"


def test_how_long(venue: Venue) -> None:
    path = venue.database(4)
    for size, seconds in ((15, 25), (90, 660)):
        os.truncate(path, size << 20)
        assert f"(schema version 6, {size} MB): guests and counters wait for up to {seconds} seconds, {SLOWER}.\n" in taken(venue), (
            "ten seconds for the start, one for each MB, and 8 more for each beyond 20")


def test_how_long_by_name(venue: Venue) -> None:
    for name, size in (("north", 20), ("south", 30)):
        os.truncate(venue.database(4, place=f"portal-venues/{name}"), size << 20)
    assert f"50 MB): guests and counters wait for up to 150 seconds in all, one venue after another, {SLOWER}.\n" in taken(venue), (
        "of venues by name all together, each with a start of its own")


def test_what_cannot_be_read(venue: Venue) -> None:
    venue.database(4).write_bytes(b"no database" * 99)
    assert "is not known: file is not a database" in taken(venue), "it is said, and left to the program"


@pytest.mark.parametrize("kind", KINDS)
@pytest.mark.parametrize("name", ("schema", "book.db", "book.db-wal"))
def test_what_the_server_could_plant(venue: Venue, kind: str, name: str) -> None:
    outside = outside_file(venue.room)
    path = venue.database(4).with_name(name)
    plant(kind, path, outside)
    with within(60):
        said = taken(venue)
    is_database = name.startswith("book") and kind != "link to nothing"
    assert not is_database or f"is not known: {path} is no plain file" in said, f"a {kind} is not read  [{said}]"
    assert outside.read_text() == KEPT, "and nothing outside is changed"


def test_no_database(venue: Venue) -> None:
    venue.folder.mkdir(parents=True)
    assert taken(venue) == "", "a first installation looks at nothing"
