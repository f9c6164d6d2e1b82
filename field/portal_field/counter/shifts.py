"""Shifts: a drawer is opened with a float, takes what is paid in cash, and is closed with what was counted.

A shift is the line of the journal that opened it. Each receipt names the shift that was open as it was
written, so that a shift adds up whatever time it was.
"""

from __future__ import annotations

import datetime
import re
import sqlite3
import time
from dataclasses import dataclass
from typing import Any

from portal_field.counter.journal import Journal, span_of
from portal_field.counter.money_tables import OPEN_SHIFT
from portal_field.counter.payments import CASH

MOST = 100_000_000      # hundredths that a drawer holds at most
NEWEST = 20             # shifts that a page lists
AMOUNT = re.compile(r"([0-9]{1,7})([.,]([0-9]{1,2}))?")
CASH_OF_SHIFT = """
SELECT coalesce(sum(iif(receipts.act = 'sell', acts.price, 0)), 0),
    coalesce(sum(iif(receipts.act = 'refund', acts.price, 0)), 0)
FROM receipts JOIN receipt_lines ON receipt_lines.receipt = receipts.number
    JOIN acts ON acts.number = receipt_lines.entry
WHERE receipts.shift = ? AND receipts.payment = ?"""
MOVES = "SELECT act, sum FROM drawer_acts WHERE shift = ?"
ACTS = "SELECT number, moment, clerk, request, drawer, act, shift, sum, due, note FROM drawer_acts"


def drawers(conf: dict[str, Any]) -> list[str]:
    """The venue's drawers; one without a name where it names none."""
    listed: list[str] = conf.get("drawers", [])
    return listed or [""]


def hundredths(text: str) -> int | None:
    """An amount of money as a clerk types it, `12`, `12.5` or `12,50`; None where it is none."""
    found = AMOUNT.fullmatch(text)
    if not found:
        return None
    value = int(found[1]) * 100 + int((found[3] or "0").ljust(2, "0"))
    return value if value <= MOST else None


@dataclass(frozen=True)
class DrawerAct:
    """A line about a drawer. `sum`: the float, what was put in or taken out, or what was counted."""
    number: int
    moment: int
    clerk: str
    request: str
    drawer: str
    act: str
    shift: int
    sum: int
    due: int
    note: str


@dataclass(frozen=True)
class Drawer:
    """What is in a drawer by the journal, in hundredths."""
    float: int = 0
    sales: int = 0
    refunds: int = 0
    put_in: int = 0
    taken_out: int = 0

    @property
    def due(self) -> int:
        """What should be there."""
        return self.float + self.sales - self.refunds + self.put_in - self.taken_out


@dataclass(frozen=True)
class Shift:
    """A shift: who opened it and when, what was put in and taken out, and how it was closed, if it was."""
    opened: DrawerAct
    moves: tuple[DrawerAct, ...]
    closed: DrawerAct | None
    drawer: Drawer

    @property
    def number(self) -> int:
        """Its line in the journal."""
        return self.opened.number

    @property
    def difference(self) -> int:
        """What was counted, less what should have been there."""
        return self.closed.sum - self.closed.due if self.closed else 0


class NotThen(Exception):
    """A drawer is not as the form has it: `word` is `open`, `closed` or `due`."""

    def __init__(self, word: str) -> None:
        super().__init__(word)
        self.word = word


def drawer_of(link: sqlite3.Connection, shift: int) -> Drawer:
    """What is in the drawer of a shift."""
    sales, refunds = link.execute(CASH_OF_SHIFT, (shift, CASH)).fetchone()
    moved = {"open": 0, "in": 0, "out": 0, "close": 0}
    for act, amount in link.execute(MOVES, (shift,)):
        moved[act] += amount
    return Drawer(moved["open"], sales, refunds, moved["in"], moved["out"])


class Shifts:
    """The shifts of a journal."""

    def __init__(self, journal: Journal) -> None:
        self.journal = journal

    def acts(self, condition: str, *values: int | str) -> list[DrawerAct]:
        """The lines that a condition of SQL selects."""
        rows = self.journal.asked(f"{ACTS} WHERE {condition} ORDER BY number", *values)
        return [DrawerAct(*row) for row in rows]        # type: ignore[arg-type]

    def one(self, number: int) -> Shift | None:
        """A shift by the line that opened it."""
        acts = self.acts("shift = ?", number)
        if not acts:
            return None
        with self.journal.opened() as link:
            drawer = drawer_of(link, number)
        closed = next((act for act in acts if act.act == "close"), None)
        return Shift(acts[0], tuple(act for act in acts if act.act in ("in", "out")), closed, drawer)

    def open_one(self, drawer: str) -> Shift | None:
        """The shift of a drawer that is open now."""
        found = self.journal.asked(OPEN_SHIFT, drawer)
        return self.one(int(str(found[0][0]))) if found else None

    def newest(self) -> list[Shift]:
        """The last shifts of all drawers, the newest first."""
        numbers = self.journal.asked("SELECT number FROM drawer_acts WHERE act = 'open' ORDER BY number DESC"
                                     " LIMIT ?", NEWEST)
        return [shift for number, in numbers if (shift := self.one(int(str(number))))]

    def last_counted(self, drawer: str) -> int:
        """What was counted at the end of the last shift of a drawer, with which the next one mostly
        begins."""
        last = self.acts("drawer = ? AND act = 'close'", drawer)
        return last[-1].sum if last else 0

    def is_used(self, drawer: str) -> bool:
        """Whether the drawer ever had a shift."""
        return bool(self.journal.asked("SELECT 1 FROM drawer_acts WHERE drawer = ? LIMIT 1", drawer))

    def before(self, request: str) -> DrawerAct | None:
        """What a form did before."""
        return next(iter(self.acts("request = ?", request)), None)

    def of_day(self, day: datetime.date) -> list[Shift]:
        """The shifts that were opened or closed on a local day."""
        numbers = self.journal.asked("SELECT DISTINCT shift FROM drawer_acts WHERE act IN ('open', 'close')"
                                     " AND moment >= ? AND moment < ? ORDER BY shift", *span_of(day))
        return [shift for number, in numbers if (shift := self.one(int(str(number))))]

    def write(self, act: str, drawer: str, amount: int, note: str, who: tuple[str, str, str],
              shift: int = 0, due: int | None = None) -> None:
        """Writes a line about a drawer; `who`: the clerk, the clerk's computer, the number of the form. A
        form that is sent again writes nothing. NotThen: the drawer has an open shift where one is opened, or
        else another one than `shift`, or, with `due`, not that in it."""
        clerk, place, request = who
        with self.journal.opened() as link:
            link.execute("BEGIN IMMEDIATE")
            if link.execute("SELECT 1 FROM drawer_acts WHERE request = ?", (request,)).fetchone():
                return
            found = link.execute(OPEN_SHIFT, (drawer,)).fetchone()
            if act == "open" and found:
                raise NotThen("open")
            if act != "open" and (not found or found[0] != shift):
                raise NotThen("closed")
            number, = link.execute("SELECT coalesce(max(number), 0) + 1 FROM drawer_acts").fetchone()
            shift = found[0] if found else number
            if due is not None and drawer_of(link, shift).due != due:
                raise NotThen("due")
            link.execute("INSERT INTO drawer_acts VALUES (?, ?, ?, ?, ?, ?, ?, ?, ?, ?, ?)", (
                number, int(time.time()), clerk, place, request, drawer, act, shift, amount, due or 0, note))
