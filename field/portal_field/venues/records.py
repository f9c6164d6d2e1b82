"""What a copy of a desk's database says of plans, batches, vouchers and sessions, as rows of the view of all
venues. Codes and devices are HMACs in it: who has the key finds one, and nobody reads one."""

from __future__ import annotations

import contextlib
import datetime
import hmac
import pathlib
import sqlite3
from collections.abc import Callable
from dataclasses import dataclass
from typing import Any

from portal_field.backup.copies import BadCopy, read_only

Row = tuple[Any, ...]
# Of each table its key, after the venue, and its other columns; the queries give them in this order. What has
# the last moment that was read, or a later one, is read again: moments in a database never go back. A session
# that may still be open is read each time, as its bytes have no moment.
KEYS = {"takings": ("day",), "plan": ("plan",), "batch": ("batch",), "voucher": ("code",),
        "session": ("number",)}
VALUES = {
    "takings": ("sold", "sales", "refunded", "refunds", "is_over", "from_copy"),
    "plan": ("price", "uses", "seconds", "bytes", "shelf_days", "extend"),
    "batch": ("plan", "issued", "expires", "size"),
    "voucher": ("batch", "plan", "price", "uses", "expires", "sold", "refunded", "amount", "redeemed"),
    "session": ("device", "plan", "opened", "ends", "used", "closed")}
QUERIES = {
    "plan": "SELECT id, price, uses, seconds, bytes, shelf_days, extend FROM portal_plans",
    "batch": "SELECT id, plan_id, issued, expires, size FROM portal_batches WHERE issued >= :moment",
    "voucher": """
SELECT voucher.code, batch.id, plan.id, plan.price, plan.uses, batch.expires, voucher.sold, voucher.refunded,
    voucher.amount, voucher.redeemed
FROM {vouchers} AS voucher JOIN portal_batches AS batch ON batch.id = voucher.batch_id
    JOIN portal_plans AS plan ON plan.id = batch.plan_id
WHERE batch.issued >= :moment OR voucher.sold >= :moment OR voucher.refunded >= :moment
    OR voucher.code IN (SELECT code FROM portal_grants WHERE number > :grants)""",
    "session": """
SELECT number, device, plan_id, opened, ends, used, closed
FROM {sessions}
WHERE opened >= :moment OR closed >= :moment OR (closed IS NULL AND (ends IS NULL OR ends >= :moment))
    OR number IN (SELECT session FROM portal_grants WHERE number > :grants)"""}
MOMENTS = {"issued", "expires", "sold", "refunded", "opened", "ends", "closed"}
# What both sides count: an older copy that has gone on since is noticed by them
SUMS = """
SELECT (SELECT count(*) FROM portal_batches), count(*), count(sold), count(refunded), ifnull(sum(amount), 0),
    ifnull(sum(redeemed), 0), (SELECT count(*) FROM portal_sessions),
    (SELECT count(closed) FROM portal_sessions)
FROM {vouchers}"""
# The tables with the counters: up to schema version 5 these are in tables of their own.
TABLES = {"vouchers": "portal_vouchers", "sessions": "portal_sessions"}
TABLES_APART = {"vouchers": "(SELECT * FROM portal_vouchers JOIN portal_counts USING (code))",
                "sessions": "(SELECT * FROM portal_sessions JOIN portal_totals USING (number))"}


def hidden(key: bytes, kind: str, text: str) -> bytes:
    """What stands for a code or a device (`kind`) in the view: 16 octets of HMAC-SHA-256 (RFC 2104)."""
    return hmac.digest(key, f"{kind} {text}".encode(), "sha256")[:16]


def time_of(moment: int | None) -> datetime.datetime | None:
    """A moment of the database, in seconds since 1970, as a time in UTC."""
    return None if moment is None else datetime.datetime.fromtimestamp(moment, datetime.UTC)


@dataclass(frozen=True)
class Head:
    """How far a database goes: its last moment, and how many redemptions and sessions it has."""
    moment: int = 0
    grants: int = 0
    sessions: int = 0

    def is_older_than(self, other: Head) -> bool:
        """Whether a database that goes as far as this one cannot come after the other: these numbers never
        go back."""
        return self.moment < other.moment or self.grants < other.grants or self.sessions < other.sessions


@dataclass(frozen=True)
class Records:
    """What was read of a copy. `first`: the moment of the first batch, or none; `sums`: see SUMS."""
    head: Head
    first: int | None
    sums: Row
    rows: dict[str, list[Row]]


def reader(key: bytes, table: str) -> Callable[[Row], Row]:
    """What makes a row of the view out of a row of the database."""
    def read(row: Row) -> Row:
        return tuple(convert(name, value) for name, value in zip((*KEYS[table], *VALUES[table]), row))

    def convert(name: str, value: Any) -> Any:
        if name in MOMENTS:
            return time_of(value)
        if name in ("code", "device"):
            return hidden(key, name, value)
        return bool(value) if name == "extend" else value
    return read


def tables_of(base: sqlite3.Connection) -> dict[str, str]:
    """The tables with the counters, in the schema version of a database."""
    row = base.execute("SELECT layout FROM portal_head").fetchone()
    return TABLES_APART if row and row[0] < 6 else TABLES


def read_head(base: sqlite3.Connection) -> Head:
    """How far a database goes."""
    row = base.execute("SELECT last_moment, grants, sessions FROM portal_head").fetchone()
    return Head(*row) if row else Head()


def read_records(path: pathlib.Path, key: bytes, since: Head) -> Records:
    """What a copy has that a database which went as far as `since` had not, or had otherwise; all of it where
    that goes nowhere, or is later than the copy. BadCopy: it cannot be read."""
    try:
        with contextlib.closing(read_only(path)) as base:
            head = read_head(base)
            start = Head() if head.is_older_than(since) else since
            words = {"moment": start.moment, "grants": start.grants}
            tables = tables_of(base)
            rows = {table: list(map(reader(key, table), base.execute(query.format(**tables), words)))
                    for table, query in QUERIES.items()}
            first = base.execute("SELECT min(issued) FROM portal_batches").fetchone()[0]
            return Records(head, first, base.execute(SUMS.format(**tables)).fetchone(), rows)
    except (sqlite3.Error, ValueError, OverflowError) as fault:
        raise BadCopy(f"its records cannot be read: {fault}") from fault
