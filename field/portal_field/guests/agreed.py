"""Which version of the venue's terms the guest of each session accepted, in a file of the page's own."""

from __future__ import annotations

import contextlib
import sqlite3
import sys
import time
from collections.abc import Iterator

TABLE = """
CREATE TABLE IF NOT EXISTS agreed (session INTEGER NOT NULL, version TEXT NOT NULL, moment INTEGER NOT NULL,
    PRIMARY KEY (session, version)) WITHOUT ROWID"""
DAY = 86_400


class Agreed:
    """The file at `path`, whose lines are removed after `days`. Without a path nothing is kept."""

    def __init__(self, path: str, days: int) -> None:
        self.path, self.days = path, days
        self.purge()

    @contextlib.contextmanager
    def opened(self) -> Iterator[sqlite3.Connection]:
        """A connection to the file, and one transaction in it."""
        with contextlib.closing(sqlite3.connect(self.path, timeout=5)) as link, link:
            link.execute("PRAGMA secure_delete = ON")
            link.execute(TABLE)
            yield link

    def add(self, session: int, version: str) -> None:
        """Keeps the version that was accepted for a session, once. A guest is online all the same where that
        fails; the journal says so."""
        self.do("INSERT OR IGNORE INTO agreed VALUES (?, ?, ?)", session, version, int(time.time()))
        self.purge()

    def purge(self) -> None:
        """Removes the lines that are older than their days."""
        self.do("DELETE FROM agreed WHERE moment < ?", int(time.time()) - self.days * DAY)

    def do(self, statement: str, *values: object) -> None:
        """Carries out one statement, or says in the journal why it cannot."""
        if not self.path:
            return
        try:
            with self.opened() as link:
                link.execute(statement, values)
        except sqlite3.Error as fault:
            print(f"<4>front: {self.path}: {fault}", file=sys.stderr, flush=True)
