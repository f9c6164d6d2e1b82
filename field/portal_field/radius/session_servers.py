"""Which access servers logged a session in, by name: theirs alone are accounting packets with no Class, or
with one of version 1.0.0, which had no HMAC.

Kept in logins.db beside radacct.db, since sessions outlive FreeRADIUS. Whoever logged in before the upgrade
from 1.0.0 is adopted once, with the first list of open sessions: by its accounting rows, or, where it had
none yet, as the first access server that counts for it.
"""

from __future__ import annotations

import pathlib
import sqlite3
import threading
import time
from collections.abc import Callable
from typing import Any

from portal_field.radius.classes import in_radacct
from portal_field.radius.disconnects import Server, server_at

HOUR, DAY = 3600, 86_400
WHOEVER = ""            # no access server's name: the first one that counts
TABLE = """CREATE TABLE IF NOT EXISTS portal_logins (session INTEGER, device TEXT, server TEXT, at INTEGER,
  PRIMARY KEY (session, device, server)) WITHOUT ROWID"""
NOTE = "INSERT OR IGNORE INTO portal_logins VALUES (?, ?, ?, ?)"
SERVERS = "SELECT server FROM portal_logins WHERE session = ? AND device = ?"
OLD = "SELECT DISTINCT session FROM portal_logins WHERE at < ?"
ROWS = "SELECT DISTINCT nasipaddress FROM radacct WHERE class >= ? AND class < ?"
TO_TAKE_OVER, TAKEN_OVER = 1, 2     # PRAGMA user_version
Row = dict[str, Any]


def path_beside(radacct: str) -> pathlib.Path:
    """The database of logins, beside that of accounting."""
    return pathlib.Path(radacct).with_name("logins.db")


def make(radacct: str, is_new: bool) -> None:
    """Makes the database of logins, before FreeRADIUS starts. `is_new`: there was no radacct.db, so no other
    version has logged anybody in."""
    book = sqlite3.connect(path_beside(radacct), isolation_level=None)
    try:
        book.execute("PRAGMA journal_mode = WAL")
        book.execute(TABLE)
        if book.execute("PRAGMA user_version").fetchone()[0] == 0:
            book.execute(f"PRAGMA user_version = {TAKEN_OVER if is_new else TO_TAKE_OVER}")
    finally:
        book.close()


class SessionServers:
    """`named`: the access servers of the settings. `warn` writes a line into FreeRADIUS's log."""

    def __init__(self, radacct: str, access_servers: list[Server], warn: Callable[[str], None]) -> None:
        self.radacct, self.access_servers, self.warn = radacct, access_servers, warn
        self.book = sqlite3.connect(path_beside(radacct), timeout=2, isolation_level=None,
                                    check_same_thread=False)
        self.book.execute("PRAGMA synchronous = NORMAL")
        self.lock = threading.Lock()
        self.taken_over = self.book.execute("PRAGMA user_version").fetchone()[0] == TAKEN_OVER
        self.purge_at = 0.0

    def servers(self, session: int, device: str) -> set[str]:
        """The access servers that logged a device into a session."""
        with self.lock:
            return {name for name, in self.book.execute(SERVERS, (session, device))}

    def note(self, session: int, device: str, server: str) -> None:
        """Notes that an access server logged the session in."""
        if server not in self.servers(session, device):
            with self.lock:
                self.book.execute(NOTE, (session, device, server, int(time.time())))

    def may_count(self, session: int, device: str, server: str) -> bool:
        """Whether its packets with no Class, or with one of version 1.0.0, belong to the session."""
        if not self.taken_over:
            return True         # for the moment until the server has answered after the upgrade
        names = self.servers(session, device)
        if names == {WHOEVER}:
            self.note(session, device, server)
            return True
        return server in names

    def note_open(self, rows: list[Row]) -> None:
        """Takes the open sessions of the time before the upgrade over, and drops old ones, by a list of those
        that are open. What cannot be written now is written at a later list."""
        try:
            if not self.taken_over:
                self.take_over(rows)
            if time.monotonic() >= self.purge_at:
                self.purge({row["session"] for row in rows})
        except sqlite3.Error as fault:
            self.warn(f"logins.db: {fault}")

    def take_over(self, rows: list[Row]) -> None:
        """Notes the open sessions of the time before the upgrade, all of them or none."""
        accounting, now = sqlite3.connect(self.radacct, timeout=2), int(time.time())
        try:
            logins = []
            for row in rows:
                addresses = accounting.execute(ROWS, in_radacct(row["session"], row["device"]))
                servers = (server_at(self.access_servers, address) for address, in addresses)
                names = {server.name for server in servers if server}
                logins += [(row["session"], row["device"], name, now) for name in names or {WHOEVER}]
        finally:
            accounting.close()
        with self.lock, self.book:
            self.book.execute("BEGIN")
            self.book.executemany(NOTE, logins)
            self.book.execute(f"PRAGMA user_version = {TAKEN_OVER}")
        self.taken_over = True

    def purge(self, open_now: set[int]) -> None:
        """Drops what is older than a day and not open."""
        with self.lock:
            old = [session for session, in self.book.execute(OLD, (int(time.time()) - DAY,))]
            self.book.executemany("DELETE FROM portal_logins WHERE session = ?",
                                  [(session,) for session in old if session not in open_now])
        self.purge_at = time.monotonic() + HOUR
