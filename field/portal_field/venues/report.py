"""portal-venues report: the view of all venues for their office. Takings by venue, this week beside the weeks
before; who is silent; which certificate ends; which days changed after they were over; which database was
older; who has not got the plans of the chain. With --csv the takings of each venue and day, as a file."""

from __future__ import annotations

import csv
import datetime
import io
from collections.abc import Iterator
from typing import Any

from portal_field.counter.spreadsheet import amount, written
from portal_field.venues import chain_plans, view
from portal_field.venues.office import CHANGED, LATELY, OLDER, SILENT, TAKINGS
from portal_field.venues.places import Machine

SOON = 21       # days before the end of a certificate
CSV_HEAD = ("venue", "house", "currency", "day", "sold", "sales", "refunded", "refunds", "net", "from_copy")
WEEKS = """
SELECT venue, house, currency, week, net
FROM portal_view.venue LEFT JOIN portal_view.week USING (venue)
WHERE retired IS NULL OR week >= %(first)s ORDER BY venue, week"""
CERTIFICATES = """
SELECT machine, min(certificate_ends) FROM portal_view.venue
WHERE retired IS NULL AND certificate_ends < now() + %s * interval '1 day'
GROUP BY machine ORDER BY machine"""


def moment(time: datetime.datetime | None) -> str:
    """A time in UTC, to the minute."""
    return f"{time.astimezone(datetime.UTC):%Y-%m-%d %H:%M} UTC" if time else "never"


def monday(day: datetime.date) -> datetime.date:
    """The first day of the week of a day."""
    return day - datetime.timedelta(day.weekday())


def weeks_table(link: Any, today: datetime.date, weeks: int) -> Iterator[str]:
    """The net takings of each venue, week beside week, and their sums by currency."""
    starts = [monday(today) - datetime.timedelta(7 * back) for back in range(weeks)]
    nets: dict[tuple[str, str, str], dict[datetime.date, int]] = {}
    for venue, house, currency, week, net in link.execute(WEEKS, {"first": starts[-1]}):
        nets.setdefault((venue, currency, house), {})[week] = net
    yield f"{'net, week from':24}" + "".join(f"{start!s:>13}" for start in starts)
    sums: dict[str, list[int]] = {}
    for (venue, currency, house), found in nets.items():
        row = [found.get(start, 0) for start in starts]
        sums[currency] = [a + b for a, b in zip(row, sums.get(currency, [0] * weeks))]
        yield f"{venue:20}{currency:4}" + "".join(f"{amount(net)!s:>13}" for net in row) + f"  {house}"
    for currency, row in sorted(sums.items()):
        yield f"{'all':20}{currency:4}" + "".join(f"{amount(net)!s:>13}" for net in row)


def troubles(link: Any) -> Iterator[str]:
    """What the office should know beside the takings, line by line."""
    for venue, machine, seen, fault in link.execute(SILENT):
        yield f"{venue} on {machine}: {fault}; its server answered last: {moment(seen)}"
    for machine, ends in link.execute(CERTIFICATES, (SOON,)):
        yield f"the certificate of {machine} ends: {moment(ends)}"
    for venue, day, seen, was, net in link.execute(CHANGED, (LATELY,)):
        yield (f"{venue}: {day} was over and changed: net {amount(was)}, and {amount(net)} since "
               f"{moment(seen)}")
    for venue, seen, was, as_of in link.execute(OLDER, (LATELY,)):
        yield (f"{venue}: its database went back from {moment(was)} to {moment(as_of)}, as after a restore; "
               f"seen {moment(seen)}")


def show(machine: Machine, weeks: int, today: datetime.date) -> str:
    """The report as text. BadVenue, table.Away: as view.opened has it."""
    with view.opened(machine) as link:
        lines = list(weeks_table(link, today, weeks))
        found = list(troubles(link))
    found += chain_plans.behind(machine)
    return "\n".join([*lines, "", *(found or ["All venues answered."])]) + "\n"


def as_csv(machine: Machine, first: datetime.date, last: datetime.date) -> str:
    """The takings of each venue and day on which something was sold or refunded, as CSV (RFC 4180)."""
    out = io.StringIO()
    lines = csv.writer(out)
    lines.writerow(CSV_HEAD)
    with view.opened(machine) as link:
        for venue, house, currency, day, sold, sales, refunded, refunds, net, from_copy in link.execute(
                TAKINGS, (first, last)):
            cells = (venue, house, currency, str(day), sold, amount(sales), refunded, amount(refunds),
                     amount(net), int(from_copy))
            lines.writerow([written(cell, ",") for cell in cells])
    return out.getvalue()
