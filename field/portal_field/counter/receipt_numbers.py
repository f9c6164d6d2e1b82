"""Numbers of receipts, without gap or repetition: a number is taken in the transaction that writes the lines
of the sale.

The newest number is also kept in a second file beside the journal, `receipts.db`, by the same transaction:
SQLite commits both files or none of them. Where the two are not the same, an older journal was put back, or
a new one was begun. Then a new series begins, with the next letter.
"""

from __future__ import annotations

import pathlib
import sqlite3
from collections.abc import Callable
from dataclasses import dataclass

from portal_field.counter.money_tables import OPEN_SHIFT

KEPT = "receipts.db"
KEPT_SCHEMA = """
CREATE TABLE IF NOT EXISTS kept.newest (
    one INTEGER PRIMARY KEY CHECK (one = 1),
    series TEXT NOT NULL,
    place INTEGER NOT NULL,
    form TEXT NOT NULL
) STRICT"""
# What was sold or refunded for the first time, from a line of acts on.
NEW_LINES = """
SELECT number, act, batch, plan FROM acts WHERE number >= ? AND act IN ('sell', 'refund') AND answer = 'done'
    AND NOT EXISTS (SELECT * FROM acts AS same WHERE same.request = acts.request AND same.act = acts.act
                    AND same.answer = 'done' AND same.number < acts.number)"""
RATE_OF_BATCH = """
SELECT tax FROM receipt_lines JOIN acts ON acts.number = receipt_lines.entry
WHERE acts.batch = ? AND acts.act = 'sell' ORDER BY acts.number DESC LIMIT 1"""


@dataclass(frozen=True)
class Till:
    """What a receipt has beside the lines of the journal. `rate_of`: the tax of a plan in hundredths of a
    percent, or None."""
    form: str
    payment: str
    drawer: str
    rate_of: Callable[[str], int | None]


def open_second(link: sqlite3.Connection, journal: str) -> None:
    """Opens the second file beside the journal, before the transaction begins."""
    link.execute("ATTACH ? AS kept", (str(pathlib.Path(journal).with_name(KEPT)),))
    link.execute("BEGIN IMMEDIATE")
    link.execute(KEPT_SCHEMA)


def letter_after(series: str) -> str:
    """The next series: A, B, .., Z, AA, AB, .."""
    value = 0
    for sign in series:
        value = value * 26 + ord(sign) - ord("A") + 1
    value, text = value + 1, ""
    while value:
        value, rest = divmod(value - 1, 26)
        text = chr(ord("A") + rest) + text
    return text


def next_number(link: sqlite3.Connection) -> tuple[str, int]:
    """The series and the place of the next receipt."""
    last, kept = (link.execute(f"SELECT series, place, form FROM {table} LIMIT 1").fetchone()
                  for table in ("(SELECT * FROM receipts ORDER BY number DESC)", "kept.newest"))
    if last == kept:
        return (last[0], last[1] + 1) if last else ("", 1)
    newest = max((row[0] for row in (last, kept) if row), key=lambda series: (len(series), series))
    return letter_after(newest), 1


def rate_of(link: sqlite3.Connection, till: Till, act: str, batch: str, plan: str) -> int | None:
    """The tax of a line. A refund has the rate of the last sale of its batch, as the plan's may have changed
    since."""
    sold = link.execute(RATE_OF_BATCH, (batch,)).fetchone() if act == "refund" and batch else None
    rate: int | None = sold[0] if sold else till.rate_of(plan)
    return rate


def write_receipts(link: sqlite3.Connection, now: int, clerk: str, till: Till, first: int) -> None:
    """Writes the receipt of what stands in acts from the line `first` on; none where nothing of it is a new
    sale or refund."""
    rows = link.execute(NEW_LINES, (first,)).fetchall()
    for act in dict.fromkeys(row[1] for row in rows):
        series, place = next_number(link)
        shift = link.execute(OPEN_SHIFT, (till.drawer,)).fetchone()
        number = link.execute("INSERT INTO receipts VALUES (NULL, ?, ?, ?, ?, ?, ?, ?, ?, ?)", (
            series, place, now, clerk, till.form, act, till.payment, till.drawer, shift[0] if shift else 0,
        )).lastrowid
        link.executemany("INSERT INTO receipt_lines VALUES (?, ?, ?)",
                         [(entry, number, rate_of(link, till, act, batch, plan))
                          for entry, kind, batch, plan in rows if kind == act])
        link.execute("INSERT OR REPLACE INTO kept.newest VALUES (1, ?, ?, ?)", (series, place, till.form))
