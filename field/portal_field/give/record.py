"""What was given to which device and which sessions it had ended, in a file of portal-give's own: for the
limits of a day, and for the counter, which gets the numbers alone."""

from __future__ import annotations

import contextlib
import datetime
import json
import os
import pathlib
import sqlite3
from collections.abc import Iterator
from dataclasses import dataclass

from portal_field.give.budget import Budget

TABLES = """
CREATE TABLE IF NOT EXISTS free (device TEXT NOT NULL, day TEXT NOT NULL, plan TEXT NOT NULL,
    is_sold INTEGER NOT NULL DEFAULT 0, is_over INTEGER NOT NULL DEFAULT 0,
    PRIMARY KEY (device, day)) WITHOUT ROWID;
CREATE TABLE IF NOT EXISTS ends (device TEXT NOT NULL, session INTEGER NOT NULL, day TEXT NOT NULL,
    PRIMARY KEY (device, session)) WITHOUT ROWID;
CREATE TABLE IF NOT EXISTS days (day TEXT NOT NULL PRIMARY KEY, count INTEGER NOT NULL) WITHOUT ROWID;
CREATE TABLE IF NOT EXISTS known (device TEXT NOT NULL PRIMARY KEY, since REAL NOT NULL) WITHOUT ROWID;
CREATE TABLE IF NOT EXISTS hour (row INTEGER NOT NULL PRIMARY KEY CHECK (row = 1), left REAL NOT NULL,
    at REAL NOT NULL)"""
KEPT_DAYS = 7       # a device is kept for so many days
COUNTED_DAYS = 800  # and how many vouchers there were on a day
KNOWN = 86_400      # a device is known for so many seconds


@dataclass(frozen=True)
class Gift:
    """The free voucher of a device and a day. `is_over`: nothing is left to be done for it."""
    device: str
    day: datetime.date
    plan: str
    is_over: bool = False


class Record:
    """The file at `path`, each change on the disk before it counts; and beside it `days.json`, which all may
    read: how many free vouchers there were on each day. sqlite3.Error and OSError: it cannot be read or
    written."""

    def __init__(self, path: pathlib.Path) -> None:
        self.path, self.days = path, path.with_name("days.json")
        with self.opened():
            self.tell_days()

    @contextlib.contextmanager
    def opened(self) -> Iterator[sqlite3.Connection]:
        """A connection to the file, and one transaction in it."""
        with contextlib.closing(sqlite3.connect(self.path, timeout=5)) as link:
            for line in ("PRAGMA synchronous = FULL", "PRAGMA secure_delete = ON", *TABLES.split(";")):
                link.execute(line)
            with link:
                yield link

    def last_gift(self, device: str) -> Gift | None:
        """The free voucher of a device that is of the latest day."""
        with self.opened() as link:
            row = link.execute("SELECT day, plan, is_over FROM free WHERE device = ? "
                               "ORDER BY day DESC LIMIT 1", (device,)).fetchone()
        return Gift(device, datetime.date.fromisoformat(row[0]), row[1], bool(row[2])) if row else None

    def gifts_since(self, day: datetime.date) -> int:
        """How many free vouchers there were on a day and later: of later days, where the clock was set
        back."""
        return self.count("SELECT count(*) FROM free WHERE day >= ?", str(day))

    def budget(self, most: int, now: float) -> Budget:
        """What is left of the hour's free vouchers. Where the clock was set back they come back from now
        on."""
        with self.opened() as link:
            left, at = link.execute("SELECT left, at FROM hour").fetchone() or (most, now)
            if at > now:
                link.execute("UPDATE hour SET at = ?", (now,))
        return Budget(most, left, at).later(now)

    def known_since(self, device: str, now: float) -> float:
        """Since when a device is known, which is from now on where it was not. By a clock that was set back
        it was not."""
        is_recent = "since BETWEEN ? AND ?"
        with self.opened() as link:
            row = link.execute(f"SELECT since FROM known WHERE device = ? AND {is_recent}",
                               (device, now - KNOWN, now)).fetchone()
            if row is None:
                link.execute(f"DELETE FROM known WHERE NOT {is_recent}", (now - KNOWN, now))
                link.execute("INSERT OR IGNORE INTO known VALUES (?, ?)", (device, now))
        return float(row[0]) if row else now

    def begin_gift(self, gift: Gift, budget: Budget) -> None:
        """Keeps a free voucher before it is issued, and what it leaves of the hour's."""
        with self.opened() as link:
            link.execute("INSERT OR IGNORE INTO free (device, day, plan) VALUES (?, ?, ?)",
                         (gift.device, str(gift.day), gift.plan))
            link.execute("INSERT OR REPLACE INTO hour VALUES (1, ?, ?)", (budget.left, budget.at))
        self.purge(gift.day)

    def count_gift(self, gift: Gift, today: datetime.date) -> None:
        """Counts a free voucher among those that the server sold today, once."""
        with self.opened() as link:
            found = link.execute("UPDATE free SET is_sold = 1 WHERE device = ? AND day = ? AND NOT is_sold",
                                 (gift.device, str(gift.day)))
            if found.rowcount:
                link.execute("INSERT INTO days VALUES (?, 1) "
                             "ON CONFLICT (day) DO UPDATE SET count = count + 1", (str(today),))
        self.tell_days()

    def end_gift(self, gift: Gift) -> None:
        """Notes that nothing is left to be done for a free voucher."""
        self.do("UPDATE free SET is_over = 1 WHERE device = ? AND day = ?", gift.device, str(gift.day))

    def has_ended(self, device: str, session: int) -> bool:
        """Whether this device had this session ended."""
        return bool(self.count("SELECT count(*) FROM ends WHERE device = ? AND session = ?", device, session))

    def ends_since(self, day: datetime.date, device: str = "") -> int:
        """How many sessions were ended on a day and later: of a device, or of all."""
        return self.count("SELECT count(*) FROM ends WHERE day >= ? AND ? IN ('', device)", str(day), device)

    def begin_end(self, device: str, session: int, day: datetime.date) -> None:
        """Keeps that a session is ended, before it is."""
        self.do("INSERT OR IGNORE INTO ends VALUES (?, ?, ?)", device, session, str(day))
        self.purge(day)

    def purge(self, today: datetime.date) -> None:
        """Removes what is older than its days."""
        kept, counted = (str(today - datetime.timedelta(days)) for days in (KEPT_DAYS, COUNTED_DAYS))
        with self.opened() as link:
            for table, day in (("free", kept), ("ends", kept), ("days", counted)):
                link.execute(f"DELETE FROM {table} WHERE day < ?", (day,))

    def count(self, question: str, *values: object) -> int:
        """The number that is the answer to a question."""
        with self.opened() as link:
            return int(link.execute(question, values).fetchone()[0])

    def do(self, statement: str, *values: object) -> None:
        """Carries out one statement."""
        with self.opened() as link:
            link.execute(statement, values)

    def tell_days(self) -> None:
        """Writes how many free vouchers there were on each day, as a whole."""
        with self.opened() as link:
            counts = dict(link.execute("SELECT day, count FROM days"))
        part = self.days.with_name(".days.json.part")
        with os.fdopen(os.open(part, os.O_WRONLY | os.O_CREAT | os.O_TRUNC, 0o644), "w") as file:
            os.fchmod(file.fileno(), 0o644)
            json.dump(counts, file)
        part.replace(self.days)
