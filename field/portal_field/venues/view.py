"""The view of all venues in PostgreSQL, in the schema portal_view of the database that has the table of
venues. It is copied from the venues; what it has can be copied again."""

from __future__ import annotations

import contextlib
import datetime
from collections.abc import Iterable, Iterator, Sequence
from dataclasses import dataclass
from typing import Any

from portal_field import KIT
from portal_field.venues import table
from portal_field.venues.places import BadVenue, Machine
from portal_field.venues.records import KEYS, VALUES, Head, Records, Row, time_of

NO_DATABASE = ("venues.toml names no database: the view of all venues is in the one that has the table of "
               "venues")
ALL = "*"       # in portal_view.reader: every venue
VENUES = """
INSERT INTO portal_view.venue (venue, machine, house, zone, currency, retired)
SELECT name, machine, house, settings ->> 'zone', coalesce(settings ->> 'currency', ''), retired
FROM portal.venue
ON CONFLICT (venue) DO UPDATE SET machine = excluded.machine, house = excluded.house, zone = excluded.zone,
    currency = excluded.currency, retired = excluded.retired
WHERE (venue.machine, venue.house, venue.zone, venue.currency, venue.retired) IS DISTINCT FROM
    (excluded.machine, excluded.house, excluded.zone, excluded.currency, excluded.retired)"""
HERE = "SELECT venue FROM portal_view.venue WHERE machine = %s AND retired IS NULL ORDER BY venue"
LOCK = "SELECT pg_advisory_xact_lock(hashtext('portal_view'), hashtext(%s))"
STATE = "SELECT as_of, grants, sessions, stamp, whole FROM portal_view.venue WHERE venue = %s"
SUMS = """
SELECT (SELECT count(*) FROM portal_view.batch WHERE venue = %(venue)s), count(*), count(sold),
    count(refunded), coalesce(sum(amount), 0)::bigint, coalesce(sum(redeemed), 0)::bigint,
    (SELECT count(*) FROM portal_view.session WHERE venue = %(venue)s),
    (SELECT count(closed) FROM portal_view.session WHERE venue = %(venue)s)
FROM portal_view.voucher WHERE venue = %(venue)s"""
OF_THE_DATABASE = ("session", "voucher", "batch", "plan")
NOTE_OLDER = "INSERT INTO portal_view.older_copy (venue, was_as_of, as_of) VALUES (%s, %s, %s)"
FORGET = "UPDATE portal_view.venue SET stamp = '' WHERE venue = %s"
READ = "UPDATE portal_view.venue SET as_of = %s, grants = %s, sessions = %s, stamp = %s WHERE venue = %s"
TRIED = """
UPDATE portal_view.venue SET tried = clock_timestamp(), fault = %(fault)s, certificate_ends = %(ends)s,
    seen = CASE WHEN %(answered)s THEN clock_timestamp() ELSE seen END,
    whole = CASE WHEN %(whole)s THEN clock_timestamp() ELSE whole END
WHERE venue = %(venue)s"""


@dataclass(frozen=True)
class State:
    """What the view has of a venue: how far its records go, the files they were read from, and when all of
    it was read last."""
    head: Head
    stamp: str
    whole: datetime.datetime | None


@contextlib.contextmanager
def opened(machine: Machine) -> Iterator[Any]:
    """A connection in one transaction, with the view made. BadVenue: no database is named, or PostgreSQL
    refuses what is asked; table.Away: it cannot be had."""
    if not machine.database:
        raise BadVenue(NO_DATABASE)
    with table.opened(machine) as link:
        if link.execute("SELECT to_regclass('portal_view.reader')").fetchone() == (None,):
            link.execute((KIT / "venues/view.sql").read_bytes())
        yield link


def venues_of(link: Any, machine: Machine) -> list[str]:
    """Takes all venues of the table into the view; the names of those of this machine."""
    link.execute(VENUES)
    return [name for name, in link.execute(HERE, (machine.own_name,))]


def state_of(link: Any, venue: str) -> State:
    """What the view has of a venue, which nobody else writes until the transaction ends."""
    link.execute(LOCK, (venue,))
    as_of, grants, sessions, stamp, whole = link.execute(STATE, (venue,)).fetchone()
    return State(Head(int(as_of.timestamp()) if as_of else 0, grants, sessions), stamp, whole)


def put(link: Any, name: str, venue: str, rows: Iterable[Row], replaces: bool = True) -> int:
    """Puts rows of a venue into a table; how many are new or were another one. Rows that are there already
    stay where `replaces` is not set."""
    key, values = ("venue", *KEYS[name]), VALUES[name]
    columns = ", ".join((*key, *values))
    link.execute(f"CREATE TEMP TABLE fresh ON COMMIT DROP AS SELECT {columns} FROM portal_view.{name} "
                 "WITH NO DATA")
    with link.cursor().copy(f"COPY fresh ({columns}) FROM STDIN") as stream:
        for row in rows:
            stream.write_row((venue, *row))
    change = f"""DO UPDATE SET {', '.join(f'{one} = excluded.{one}' for one in values)}
        WHERE ({', '.join(f'{name}.{one}' for one in values)})
        IS DISTINCT FROM ({', '.join(f'excluded.{one}' for one in values)})""" if replaces else "DO NOTHING"
    count = link.execute(f"INSERT INTO portal_view.{name} ({columns}) SELECT {columns} FROM fresh "
                         f"ON CONFLICT ({', '.join(key)}) {change}").rowcount
    link.execute("DROP TABLE fresh")
    return int(count)


def put_records(link: Any, venue: str, records: Records) -> int:
    """Puts what was read of a venue's database into the view; how many rows are new or were another one."""
    return sum(put(link, name, venue, records.rows[name]) for name in reversed(OF_THE_DATABASE))


def is_complete(link: Any, venue: str, records: Records) -> bool:
    """Whether the view has as many rows and sums of a venue as the database that it was read from."""
    return bool(link.execute(SUMS, {"venue": venue}).fetchone() == records.sums)


def clear(link: Any, venue: str) -> None:
    """Takes all records of a venue's database out of the view; its takings stay."""
    for name in OF_THE_DATABASE:
        link.execute(f"DELETE FROM portal_view.{name} WHERE venue = %s", (venue,))


def note_older(link: Any, venue: str, before: Head, head: Head) -> None:
    """Notes that a database is older than what was read of it before."""
    link.execute(NOTE_OLDER, (venue, time_of(before.moment), time_of(head.moment)))


def note_read(link: Any, venue: str, head: Head, stamp: str) -> None:
    """Notes how far the records of a venue go, and the files that they were read from."""
    link.execute(READ, (time_of(head.moment), head.grants, head.sessions, stamp, venue))


def forget_stamp(link: Any, venue: str) -> None:
    """Has the files of a venue be read the next time, whether they are the same or not."""
    link.execute(FORGET, (venue,))


def note_tried(link: Any, venue: str, fault: str, answered: bool, whole: bool = False,
               ends: datetime.datetime | None = None) -> None:
    """Notes what came of a venue: its fault or nothing, whether its server answered, whether all of it was
    read, and when its certificate ends."""
    link.execute(TRIED, {"venue": venue, "fault": fault, "answered": answered, "whole": whole, "ends": ends})


def set_reader(link: Any, role: str, venues: Sequence[str]) -> None:
    """Lets a role of PostgreSQL read the rows of these venues and no other, of all by ALL, of none where
    none is named. BadVenue: there is no such role or venue, or the role sees all rows whatever."""
    from psycopg import sql
    row = link.execute("SELECT rolsuper OR rolbypassrls FROM pg_roles WHERE rolname = %s", (role,)).fetchone()
    if row is None:
        raise BadVenue(f"PostgreSQL has no role {role}: CREATE ROLE {role} LOGIN")
    owner, = link.execute("SELECT tableowner FROM pg_tables WHERE schemaname = 'portal_view' "
                          "AND tablename = 'reader'").fetchone()
    if row[0] or owner == role:
        raise BadVenue(f"the role {role} sees all rows, as it is a superuser or the owner: take another one")
    known = {name for name, in link.execute("SELECT venue FROM portal_view.venue")} | {ALL}
    if unknown := sorted(set(venues) - known):
        raise BadVenue(f"there is no venue {', '.join(unknown)}")
    link.execute("DELETE FROM portal_view.reader WHERE role = %s", (role,))
    for venue in venues:
        link.execute("INSERT INTO portal_view.reader (role, venue) VALUES (%s, %s)", (role, venue))
    word, to = ("GRANT", "TO") if venues else ("REVOKE", "FROM")
    for right in ("USAGE ON SCHEMA portal_view", "SELECT ON ALL TABLES IN SCHEMA portal_view"):
        link.execute(sql.SQL(f"{word} {right} {to} {{}}").format(sql.Identifier(role)))
