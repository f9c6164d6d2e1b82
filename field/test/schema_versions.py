"""Databases of each schema version, as `crates/portal_tables_sql/specs/Tables.antt` and `Indexes.antt` have them."""

from __future__ import annotations

import contextlib
import pathlib
import sqlite3

VERSIONS = (1, 2, 3, 4, 5, 6)
# The tables of version 1, and what versions 2 and 3 add; version 4 has those of version 3.
FIRST = """
CREATE TABLE portal_head (id INTEGER PRIMARY KEY, layout INTEGER NOT NULL, last_moment INTEGER NOT NULL, grants INTEGER NOT NULL, sessions INTEGER NOT NULL) STRICT;
CREATE TABLE portal_plans (id TEXT NOT NULL PRIMARY KEY, price INTEGER NOT NULL, uses INTEGER NOT NULL, seconds INTEGER NOT NULL, bytes INTEGER NOT NULL, shelf_days INTEGER NOT NULL, extend INTEGER NOT NULL) STRICT;
CREATE TABLE portal_batches (id TEXT NOT NULL PRIMARY KEY, plan_id TEXT NOT NULL REFERENCES portal_plans (id), issued INTEGER NOT NULL, expires INTEGER NOT NULL, size INTEGER NOT NULL) STRICT;
CREATE TABLE portal_vouchers (code TEXT NOT NULL PRIMARY KEY, batch_id TEXT NOT NULL REFERENCES portal_batches (id), place INTEGER NOT NULL, sold INTEGER, refunded INTEGER, amount INTEGER, UNIQUE (batch_id, place)) STRICT;
CREATE TABLE portal_sessions (number INTEGER PRIMARY KEY, device TEXT NOT NULL, plan_id TEXT NOT NULL REFERENCES portal_plans (id), opened INTEGER NOT NULL, used INTEGER NOT NULL, closed INTEGER) STRICT;
CREATE TABLE portal_grants (number INTEGER PRIMARY KEY, code TEXT NOT NULL REFERENCES portal_vouchers (code), session INTEGER NOT NULL REFERENCES portal_sessions (number), moment INTEGER NOT NULL, seconds INTEGER NOT NULL, bytes INTEGER NOT NULL) STRICT;
"""
SECOND = """
CREATE TABLE portal_counts (code TEXT NOT NULL PRIMARY KEY REFERENCES portal_vouchers (code), redeemed INTEGER NOT NULL) STRICT;
CREATE TABLE portal_totals (number INTEGER PRIMARY KEY REFERENCES portal_sessions (number), ends INTEGER, remaining INTEGER) STRICT;
"""
THIRD = """
CREATE TABLE portal_requests (caller TEXT NOT NULL, number TEXT NOT NULL, method TEXT NOT NULL, path TEXT NOT NULL, body BLOB NOT NULL, kind INTEGER NOT NULL, word TEXT, n1 INTEGER NOT NULL, n2 INTEGER, n3 INTEGER, PRIMARY KEY (caller, number)) STRICT;
"""
ADDED = {1: FIRST, 2: SECOND, 3: THIRD, 4: ""}
# The tables and indexes of version 5: the same columns without clauses.
FIFTH = """
CREATE TABLE portal_head (id INTEGER PRIMARY KEY, layout INTEGER NOT NULL, last_moment INTEGER NOT NULL, grants INTEGER NOT NULL, sessions INTEGER NOT NULL) STRICT;
CREATE TABLE portal_plans (id TEXT NOT NULL, price INTEGER NOT NULL, uses INTEGER NOT NULL, seconds INTEGER NOT NULL, bytes INTEGER NOT NULL, shelf_days INTEGER NOT NULL, extend INTEGER NOT NULL) STRICT;
CREATE TABLE portal_batches (id TEXT NOT NULL, plan_id TEXT NOT NULL, issued INTEGER NOT NULL, expires INTEGER NOT NULL, size INTEGER NOT NULL) STRICT;
CREATE TABLE portal_vouchers (code TEXT NOT NULL, batch_id TEXT NOT NULL, place INTEGER NOT NULL, sold INTEGER, refunded INTEGER, amount INTEGER) STRICT;
CREATE TABLE portal_sessions (number INTEGER PRIMARY KEY, device TEXT NOT NULL, plan_id TEXT NOT NULL, opened INTEGER NOT NULL, used INTEGER NOT NULL, closed INTEGER) STRICT;
CREATE TABLE portal_grants (number INTEGER PRIMARY KEY, code TEXT NOT NULL, session INTEGER NOT NULL, moment INTEGER NOT NULL, seconds INTEGER NOT NULL, bytes INTEGER NOT NULL) STRICT;
CREATE TABLE portal_counts (code TEXT NOT NULL, redeemed INTEGER NOT NULL) STRICT;
CREATE TABLE portal_totals (number INTEGER PRIMARY KEY, ends INTEGER, remaining INTEGER) STRICT;
CREATE TABLE portal_requests (caller TEXT NOT NULL, number TEXT NOT NULL, method TEXT NOT NULL, path TEXT NOT NULL, body BLOB NOT NULL, kind INTEGER NOT NULL, word TEXT, n1 INTEGER NOT NULL, n2 INTEGER, n3 INTEGER) STRICT;
CREATE INDEX portal_plans_by_id ON portal_plans (id);
CREATE INDEX portal_batches_by_id ON portal_batches (id);
CREATE INDEX portal_batches_by_issue ON portal_batches (issued, id);
CREATE INDEX portal_vouchers_by_code ON portal_vouchers (code);
CREATE INDEX portal_vouchers_by_batch ON portal_vouchers (batch_id, place);
CREATE INDEX portal_sessions_by_device ON portal_sessions (device, number);
CREATE INDEX portal_grants_by_code ON portal_grants (code);
CREATE INDEX portal_counts_by_code ON portal_counts (code);
CREATE INDEX portal_requests_by_key ON portal_requests (caller, number);
"""
# Those of version 6: the counters are columns of the vouchers and the sessions.
SIXTH = "".join(
    line.replace("amount INTEGER)", "amount INTEGER, redeemed INTEGER NOT NULL)")
    .replace("closed INTEGER)", "closed INTEGER, ends INTEGER, remaining INTEGER)")
    for line in FIFTH.splitlines(keepends=True) if "portal_counts" not in line and "portal_totals" not in line)
# A gigabyte of three uses that was redeemed once, one that was sold, one that was not, and an hour that was sold.
ROWS = """
INSERT INTO portal_plans VALUES ('hour', 300, 1, 3600, 0, 30, 1), ('gig', 500, 3, 0, 1000000000, 30, 0);
INSERT INTO portal_batches VALUES ('b1', 'gig', 1000, 2593000, 3), ('b2', 'hour', 1000, 2593000, 1);
INSERT INTO portal_vouchers (code, batch_id, place, sold) VALUES ('2222-2222-223N', 'b1', 0, 1000), ('2222-2222-2222', 'b1', 1, 1000),
    ('2222-2222-2249', 'b1', 2, NULL), ('3N55-WA4S-KH53', 'b2', 0, 1000);
INSERT INTO portal_sessions (number, device, plan_id, opened, used) VALUES (1, '02:00:00:00:00:02', 'gig', 1000, 0);
INSERT INTO portal_grants VALUES (1, '2222-2222-223N', 1, 1000, 0, 1000000000);
"""
# Then two more uses of the first are redeemed, the second is refunded and the third sold; a batch is issued, of whose two
# codes one is sold and redeemed.
LATER = """
INSERT INTO portal_grants VALUES (2, '2222-2222-223N', 1, 1100, 0, 1000000000), (3, '2222-2222-223N', 1, 1200, 0, 1000000000);
UPDATE portal_vouchers SET refunded = 1300, amount = 500 WHERE code = '2222-2222-2222';
UPDATE portal_vouchers SET sold = 1400 WHERE code = '2222-2222-2249';
INSERT INTO portal_batches VALUES ('b3', 'hour', 1500, 2593500, 2);
INSERT INTO portal_vouchers (code, batch_id, place, sold) VALUES ('4444-4444-444A', 'b3', 0, 1500), ('4444-4444-444B', 'b3', 1, NULL);
INSERT INTO portal_sessions (number, device, plan_id, opened, used) VALUES (2, '02:00:00:00:00:01', 'hour', 90000, 0);
INSERT INTO portal_grants VALUES (4, '4444-4444-444A', 2, 90000, 3600, 0);
"""


def tables_of(version: int) -> str:
    """The statements that make the tables, and the indexes, of a version."""
    return {5: FIFTH, 6: SIXTH}.get(version) or "".join(ADDED[number] for number in range(1, version + 1))


def make_database(path: pathlib.Path, version: int, *more: str) -> None:
    """Makes a database of a version with the rows above, and then does what these statements do. Counters, which
    versions from 2 on have, are not among the rows; in version 6 each count that the statements do not insert is 0, and it is
    inserted as in version 5."""
    with contextlib.closing(sqlite3.connect(path, isolation_level=None)) as base:
        base.executescript(f"{tables_of(min(version, 5))} INSERT INTO portal_head VALUES (1, {version}, 1000, 0, 0); {ROWS} {''.join(more)}")
        if version == 6:
            base.executescript("""
                INSERT INTO portal_counts SELECT code, 0 FROM portal_vouchers WHERE code NOT IN (SELECT code FROM portal_counts);
                INSERT INTO portal_totals (number) SELECT number FROM portal_sessions WHERE number NOT IN (SELECT number FROM portal_totals);""")
            make_anew(base, 6, {"portal_vouchers": "* FROM of_portal_vouchers JOIN of_portal_counts USING (code) ORDER BY of_portal_vouchers.rowid",
                                "portal_sessions": "* FROM of_portal_sessions JOIN of_portal_totals USING (number)"})


def make_anew(base: sqlite3.Connection, version: int, selects: dict[str, str]) -> None:
    """Gives a database the tables of another version, with the rows that these SELECTs give or else with its own, in their order."""
    there = [name for name, in base.execute("SELECT name FROM sqlite_master WHERE type = 'table' AND name LIKE 'portal_%'")]
    for name, in base.execute("SELECT name FROM sqlite_master WHERE type = 'index' AND name LIKE 'portal_%'").fetchall():
        base.execute(f"DROP INDEX {name}")
    for name in there:
        base.execute(f"ALTER TABLE {name} RENAME TO of_{name}")
    base.executescript(tables_of(version))
    for name, in base.execute("SELECT name FROM sqlite_master WHERE type = 'table' AND name LIKE 'portal_%'").fetchall():
        base.execute(f"INSERT INTO {name} SELECT {selects.get(name, f'* FROM of_{name} ORDER BY rowid')}")
    for name in there:
        base.execute(f"DROP TABLE of_{name}")


def take_back(path: pathlib.Path, version: int = 4) -> None:
    """Gives a database of version 6, which nobody has open, the tables of version 4 or 5, with its rows in their order."""
    with contextlib.closing(sqlite3.connect(path, isolation_level=None)) as base:
        make_anew(base, version, {
            "portal_vouchers": "code, batch_id, place, sold, refunded, amount FROM of_portal_vouchers ORDER BY rowid",
            "portal_counts": "code, redeemed FROM of_portal_vouchers ORDER BY rowid",
            "portal_sessions": "number, device, plan_id, opened, used, closed FROM of_portal_sessions",
            "portal_totals": "number, ends, remaining FROM of_portal_sessions"})
        if version == 4:
            base.execute("CREATE INDEX portal_sessions_by_device ON portal_sessions (device, number)")
        base.executescript(f"UPDATE portal_head SET layout = {version}; VACUUM; PRAGMA wal_checkpoint(TRUNCATE)")
