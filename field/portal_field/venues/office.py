"""portal-office@.service: reads the view of all venues in PostgreSQL for the page of the office.

systemd starts one for each connection to its socket, which the counters' page alone may open. It asks as a
role of PostgreSQL of its own, whose rows are those of row-level security, and has no token and no file of a
venue. So the counters' page, which has the tokens of all venues, needs no way to PostgreSQL.

A question is a JSON object of one connection, up to its end: `ask` is "week" with `monday`, or "takings" with
`from` and `to`. The answer is an object, with `fault` in English alone where nothing can be read.
"""

from __future__ import annotations

import contextlib
import datetime
import json
import pathlib
import sys
import tomllib
from collections.abc import Iterator
from typing import Any

from portal_field.venues import one_question

SETTINGS = pathlib.Path("/etc/portal/venues/office.toml")
ROLE = "portal-office"      # of PostgreSQL, where venues.toml names none; also the user of the unit
PATIENCE = 5                # seconds for a connection
LONGEST = 10_000            # milliseconds for a query
MOST = 4096                 # bytes of a question
MOST_DAYS = 1100            # of takings in one file
LATELY = 30                 # days for which a change is shown
DAY = datetime.timedelta(days=1)
TAKINGS = """
SELECT venue, house, currency, day, sold, sales, refunded, refunds, sales - refunds, from_copy
FROM portal_view.takings JOIN portal_view.venue USING (venue)
WHERE day BETWEEN %s AND %s AND (sold, refunded) <> (0, 0) ORDER BY venue, day"""
VENUES = """
SELECT venue, house, currency, machine, retired IS NULL, silent.venue IS NOT NULL FROM portal_view.venue
    LEFT JOIN portal_view.silent USING (venue, machine, house)
WHERE retired IS NULL OR venue IN (SELECT venue FROM portal_view.takings WHERE day BETWEEN %s AND %s)
ORDER BY lower(house), venue"""
SILENT = "SELECT venue, machine, seen, fault FROM portal_view.silent ORDER BY venue"
CERTIFICATES = """
SELECT machine, min(certificate_ends) FROM portal_view.venue
WHERE retired IS NULL AND certificate_ends IS NOT NULL GROUP BY machine ORDER BY 2, 1"""
CHANGED = """
SELECT venue, day, seen, was_sales - was_refunds, sales - refunds FROM portal_view.takings_changed
WHERE seen > now() - %s * interval '1 day' ORDER BY seen, venue, day"""
OLDER = """
SELECT venue, seen, was_as_of, as_of FROM portal_view.older_copy
WHERE seen > now() - %s * interval '1 day' ORDER BY seen, venue"""
SEES_ALL = """
SELECT rolsuper OR rolbypassrls
    OR rolname IN (SELECT tableowner FROM pg_tables WHERE schemaname = 'portal_view')
FROM pg_roles WHERE rolname = current_user"""


class Fault(Exception):
    """Why nothing can be read, in English."""


def plain(value: object) -> object:
    """A value of PostgreSQL as JSON has it: a day as ISO 8601 has it, a moment in seconds since 1970."""
    if isinstance(value, datetime.datetime):
        return int(value.timestamp())
    return str(value) if isinstance(value, datetime.date) else value


def rows(link: Any, query: str, *words: object) -> list[list[object]]:
    """The rows of a query."""
    return [[plain(value) for value in row] for row in link.execute(query, words)]


def week(link: Any, monday: datetime.date) -> dict[str, Any]:
    """What the page of a week shows: takings of that week and of the one before, and what the office should
    know beside them. Sums are in hundredths."""
    first, last = monday - 7 * DAY, monday + 6 * DAY
    return {"venues": rows(link, VENUES, first, last), "takings": rows(link, TAKINGS, first, last),
            "silent": rows(link, SILENT), "certificates": rows(link, CERTIFICATES),
            "changed": rows(link, CHANGED, LATELY), "older": rows(link, OLDER, LATELY)}


@contextlib.contextmanager
def opened(address: str) -> Iterator[Any]:
    """A connection that reads alone, and sees all of one moment. Fault: it cannot be had, or its role would
    see the rows of every venue whatever the table of readers says."""
    try:
        import psycopg
    except ImportError as fault:
        raise Fault("the Debian package python3-psycopg is not installed") from fault
    try:
        with psycopg.connect(address, connect_timeout=PATIENCE) as link:
            link.read_only, link.isolation_level = True, psycopg.IsolationLevel.REPEATABLE_READ
            link.execute(f"SET statement_timeout = {LONGEST}")
            if link.execute(SEES_ALL).fetchone() != (False,):
                raise Fault(f"the role {link.info.user} sees all rows, as it is a superuser or the owner: "
                            "take another one")
            yield link
    except psycopg.Error as fault:
        raise Fault(str(fault).strip().partition("\n")[0] or type(fault).__name__) from fault


def day_of(question: dict[str, Any], name: str) -> datetime.date:
    """A day of a question. Fault: it has none."""
    try:
        return datetime.date.fromisoformat(question[name])
    except (KeyError, TypeError, ValueError) as fault:
        raise Fault(f"the question has no day {name}") from fault


def answer(data: bytes, address: str) -> dict[str, Any]:
    """The answer to a question."""
    try:
        question = json.loads(data.decode())
        if not isinstance(question, dict) or question.get("ask") not in ("week", "takings"):
            raise Fault("the question is none of those that are known")
        names = ["monday"] if question["ask"] == "week" else ["from", "to"]
        days = [day_of(question, name) for name in names]
        if (days[-1] - days[0]).days >= MOST_DAYS:
            raise Fault(f"at most {MOST_DAYS} days")
        with opened(address) as link:
            if question["ask"] == "week":
                return week(link, days[0])
            return {"takings": rows(link, TAKINGS, *days)}
    except (ValueError, RecursionError):
        return {"fault": "the question is no JSON"}
    except (Fault, OverflowError) as fault:
        return {"fault": str(fault)}


def answer_here(data: bytes) -> dict[str, Any]:
    """The answer from the view of all venues that the settings name."""
    try:
        address = str(tomllib.loads(SETTINGS.read_text(encoding="utf-8"))["database"])
    except (OSError, ValueError, KeyError) as fault:
        return {"fault": f"{SETTINGS}: {fault}"}
    return answer(data, address)


def main() -> int:
    """Answers one question."""
    return one_question.run("office", MOST, answer_here)


if __name__ == "__main__":
    sys.exit(main())
