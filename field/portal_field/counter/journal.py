"""The counter's journal: what each clerk did, in an SQLite file that only grows.

It is never a source of truth: what was sold the server says. Codes are not in it, since a code is worth
money.
"""

from __future__ import annotations

import contextlib
import datetime
import pathlib
import sqlite3
import time
from collections.abc import Iterator, Sequence
from dataclasses import dataclass

from portal_field.counter import money_tables
from portal_field.counter.receipt_numbers import Till, open_second, write_receipts
from portal_field.lib import local_time

DONE, NO_ANSWER = "done", "no_answer"
SCHEMA = """
CREATE TABLE IF NOT EXISTS acts (
    number INTEGER PRIMARY KEY,
    moment INTEGER NOT NULL,    -- seconds since 1970
    clerk TEXT NOT NULL,
    place TEXT NOT NULL,        -- the address of the clerk's computer
    act TEXT NOT NULL,          -- issue, one (a batch of one code), replace (one of goodwill), sell,
                                -- refund, close, lost, found, time, print, look
    batch TEXT NOT NULL,        -- of the code; empty where it is not known
    plan TEXT NOT NULL,
    codes INTEGER NOT NULL,     -- how many the act was about
    price INTEGER NOT NULL,     -- hundredths that were taken, or paid back; 0 where nothing was done
    request TEXT NOT NULL,      -- the idempotency key; empty of print and look, which change nothing
    answer TEXT NOT NULL        -- done, no_answer, or the word of the refusal
) STRICT;
CREATE INDEX IF NOT EXISTS acts_by_moment ON acts (moment);
CREATE INDEX IF NOT EXISTS acts_by_request ON acts (request, act);
CREATE TRIGGER IF NOT EXISTS acts_are_not_changed BEFORE UPDATE ON acts
    BEGIN SELECT raise(ABORT, 'the journal only grows'); END;
CREATE TRIGGER IF NOT EXISTS acts_are_not_deleted BEFORE DELETE ON acts
    BEGIN SELECT raise(ABORT, 'the journal only grows'); END;
CREATE TABLE IF NOT EXISTS begun (      -- what a form that acts code by code was about to send
    request TEXT NOT NULL,      -- the idempotency key of a code
    act TEXT NOT NULL,          -- sell, refund or replace
    form TEXT NOT NULL,         -- the number of the form, of which the key is made
    moment INTEGER NOT NULL,
    clerk TEXT NOT NULL,
    place TEXT NOT NULL,
    PRIMARY KEY (request, act)
) STRICT;
CREATE INDEX IF NOT EXISTS begun_by_form ON begun (form);
CREATE TRIGGER IF NOT EXISTS begun_is_not_changed BEFORE UPDATE ON begun
    BEGIN SELECT raise(ABORT, 'the journal only grows'); END;
CREATE TRIGGER IF NOT EXISTS begun_is_not_deleted BEFORE DELETE ON begun
    BEGIN SELECT raise(ABORT, 'the journal only grows'); END;
CREATE TABLE IF NOT EXISTS reasons (    -- what a clerk typed as the reason of an act
    number INTEGER PRIMARY KEY,
    moment INTEGER NOT NULL,
    clerk TEXT NOT NULL,
    place TEXT NOT NULL,
    request TEXT NOT NULL,      -- the number of the form
    act TEXT NOT NULL,          -- replace, lost or found
    about TEXT NOT NULL,        -- the batch of the code that is replaced, or of the mark; #N: the session N
    reason TEXT NOT NULL,
    UNIQUE (request, act)
) STRICT;
CREATE INDEX IF NOT EXISTS reasons_by_about ON reasons (about);
CREATE TRIGGER IF NOT EXISTS reasons_are_not_changed BEFORE UPDATE ON reasons
    BEGIN SELECT raise(ABORT, 'the journal only grows'); END;
CREATE TRIGGER IF NOT EXISTS reasons_are_not_deleted BEFORE DELETE ON reasons
    BEGIN SELECT raise(ABORT, 'the journal only grows'); END;
"""
# The last of each table; a journal of before gets what it lacks.
LAST_TRIGGERS = ("acts_are_not_deleted", "begun_is_not_deleted", "reasons_are_not_deleted",
                 *money_tables.LAST_TRIGGERS)
HAS_ALL = f"SELECT count(*) = {len(LAST_TRIGGERS)} FROM sqlite_master WHERE name IN {LAST_TRIGGERS}"
# A form that is sent twice is done twice, with one key, and acted once: its first entry counts.
FIRST = "answer = 'done' AND number = (SELECT min(number) FROM acts AS same" \
        " WHERE same.request = acts.request AND same.act = acts.act AND same.answer = 'done')"
SUMS = f"""
SELECT {{group}}, sum(act = 'sell'), sum(iif(act = 'sell', price, 0)),
    sum(act = 'refund'), sum(iif(act = 'refund', price, 0))
FROM acts WHERE moment >= ? AND moment < ? AND act IN ('sell', 'refund') AND {FIRST}
    GROUP BY {{group}} ORDER BY {{group}}"""
ACTS = "SELECT moment, clerk, act, batch, plan, codes, price, request, answer FROM acts"
CARRIED_OUT = f"{ACTS} WHERE request = ? AND act = ? AND {FIRST}"
STEPS = f"{ACTS} WHERE act = ?2 AND request BETWEEN ?1 || '-000' AND ?1 || '-999'" \
        " AND request GLOB ?1 || '-[0-9][0-9][0-9]' ORDER BY number"
# The sale is the second step of a form that replaces.
MADE_GOOD = f"""
SELECT acts.moment, acts.clerk, acts.batch, acts.plan, acts.price, reasons.about, reasons.reason
FROM acts JOIN reasons ON acts.request = reasons.request || '-002' AND reasons.act = 'replace'
WHERE acts.number IN (SELECT number FROM acts WHERE moment >= ? AND moment < ? AND act = 'sell' AND {FIRST})
    ORDER BY acts.number"""
# The last word on each batch.
MARKS = """
SELECT about, moment, clerk, reason, request FROM reasons
WHERE number IN (SELECT max(number) FROM reasons WHERE act IN ('lost', 'found') GROUP BY about)
    AND act = 'lost'"""
# Forms of which something was sent, or was about to be, and that have no answer to it.
DOUBT = """
WITH open AS (
    SELECT request, act, moment,
        coalesce((SELECT form FROM begun WHERE begun.request = acts.request), request) AS form
    FROM acts WHERE answer IN ('no_answer', 'stopped') AND request != ''
    UNION ALL SELECT request, act, moment, form FROM begun)
SELECT count(DISTINCT form) FROM open WHERE moment >= ? AND moment < ?
    AND NOT EXISTS (SELECT * FROM acts AS later WHERE later.request = open.request AND later.act = open.act
                    AND later.answer NOT IN ('no_answer', 'stopped'))"""


@dataclass(frozen=True)
class Act:
    """What one command was, and what was answered."""
    act: str
    request: str
    answer: str
    batch: str = ""
    plan: str = ""
    codes: int = 0
    price: int = 0


@dataclass(frozen=True)
class Entry(Act):
    """An act of the journal: when, and by whom."""
    moment: int = 0
    clerk: str = ""


@dataclass(frozen=True)
class MadeGood:
    """A voucher that was given for nothing. `about`: the batch of the voucher, or the session, that it
    replaces. `batch`: its own."""
    moment: int
    clerk: str
    batch: str
    plan: str
    price: int
    about: str
    reason: str


@dataclass(frozen=True)
class Mark:
    """A batch that is marked as lost: when, by whom and why, and the number of the form that did it."""
    batch: str
    moment: int
    clerk: str
    reason: str
    request: str


@dataclass(frozen=True)
class Sums:
    """What was sold and refunded: vouchers, and hundredths."""
    name: str
    sold: int = 0
    sales: int = 0
    refunded: int = 0
    refunds: int = 0

    @property
    def net(self) -> int:
        """Sales without refunds, in hundredths."""
        return self.sales - self.refunds


def span_of(day: datetime.date) -> tuple[int, int]:
    """The first moment of a day in the venue's zone, and the first of the next."""
    ends = (day, day + datetime.timedelta(1))
    first, last = map(local_time.begin_of, ends)
    return first, last


class Journal:
    """Each call opens the file anew, so that any thread or program may ask, and a file that is gone is made
    again."""

    def __init__(self, path: str | pathlib.Path) -> None:
        self.path = str(path)

    @contextlib.contextmanager
    def opened(self) -> Iterator[sqlite3.Connection]:
        """A connection to the file, whose tables are made where they are missing: all in one transaction,
        since each one waits for the disk."""
        with contextlib.closing(sqlite3.connect(self.path, timeout=5)) as link, link:
            if not link.execute(HAS_ALL).fetchone()[0]:
                link.executescript(f"BEGIN IMMEDIATE; {SCHEMA} {money_tables.SCHEMA} COMMIT;")
            link.create_function("local_hour", 1, lambda at: f"{local_time.local(at):%H}")
            link.create_function("local_day", 1, lambda at: str(local_time.local(at).date()))
            yield link

    def add(self, clerk: str, place: str, acts: Sequence[Act], till: Till | None = None) -> None:
        """Writes what a clerk did, a line for each act, and in the same transaction the receipt of what was
        sold or refunded, where `till` says how it was paid."""
        now = int(time.time())
        is_paid = any(act.act in ("sell", "refund") and act.answer == DONE for act in acts)
        with self.opened() as link:
            if till and is_paid:
                open_second(link, self.path)
            first, = link.execute("SELECT coalesce(max(number), 0) + 1 FROM acts").fetchone()
            link.executemany("INSERT INTO acts VALUES (NULL, ?, ?, ?, ?, ?, ?, ?, ?, ?, ?)",
                             [(now, clerk, place, act.act, act.batch, act.plan, act.codes, act.price,
                               act.request,
                               act.answer) for act in acts])
            if till and is_paid:
                write_receipts(link, now, clerk, till, first)

    def asked(self, text: str, *values: int | str) -> list[tuple[object, ...]]:
        """The rows of a query."""
        with self.opened() as link:
            return link.execute(text, values).fetchall()

    def entries(self, text: str, *values: int | str) -> list[Entry]:
        """The lines of the journal that a query selects."""
        names = ("moment", "clerk", "act", "batch", "plan", "codes", "price", "request", "answer")
        rows = self.asked(text, *values)
        return [Entry(**dict(zip(names, row))) for row in rows]     # type: ignore[arg-type]

    def day(self, day: datetime.date) -> list[Entry]:
        """All lines of a local day, in their order."""
        return self.entries(f"{ACTS} WHERE moment >= ? AND moment < ? ORDER BY number", *span_of(day))

    def carried_out(self, act: str, request: str) -> Entry | None:
        """The first entry of a command that was carried out, by its idempotency key."""
        return next(iter(self.entries(CARRIED_OUT, request, act)), None)

    def steps(self, base: str, act: str = "sell") -> list[Entry]:
        """The sales or refunds of a form that acts code by code, in their order; their keys are made from its
        number."""
        return self.entries(STEPS, base, act)

    def begin(self, clerk: str, place: str, form: str, act: str, keys: Sequence[str]) -> None:
        """Writes down the keys that a form is about to send. Those that are there already stay as they
        are."""
        now = int(time.time())
        with self.opened() as link:
            link.executemany("INSERT OR IGNORE INTO begun VALUES (?, ?, ?, ?, ?, ?)",
                             [(key, act, form, now, clerk, place) for key in keys])

    def begun(self, form: str) -> set[str]:
        """The keys that a form was about to send."""
        return {str(key) for key, in self.asked("SELECT request FROM begun WHERE form = ?", form)}

    def explain(self, clerk: str, place: str, request: str, act: str, about: str, reason: str) -> None:
        """Writes down the reason of an act, before it is done. That of a form that is sent again stays as it
        is."""
        with self.opened() as link:
            link.execute("INSERT OR IGNORE INTO reasons VALUES (NULL, ?, ?, ?, ?, ?, ?, ?)",
                         (int(time.time()), clerk, place, request, act, about, reason))

    def made_good(self, day: datetime.date) -> list[MadeGood]:
        """The vouchers of a day that were given for nothing, with their reasons."""
        return [MadeGood(*row) for row in self.asked(MADE_GOOD, *span_of(day))]     # type: ignore[arg-type]

    def marks(self) -> dict[str, Mark]:
        """The batches that are marked as lost now, by their names."""
        return {str(row[0]): Mark(*row) for row in self.asked(MARKS)}       # type: ignore[arg-type]

    def by(self, group: str, day: datetime.date) -> list[Sums]:
        """The sums of a day by `plan` or by `clerk`."""
        rows = self.asked(SUMS.format(group=group), *span_of(day))
        return [Sums(*row) for row in rows]     # type: ignore[arg-type]

    def in_doubt(self, day: datetime.date) -> int:
        """How many forms of a day got no answer, and were not sent again with one."""
        return int(str(self.asked(DOUBT, *span_of(day))[0][0]))
