"""The server's takings: its table by days, weeks or months, as bars, as CSV, and beside the journal's
sums."""

from __future__ import annotations

import datetime
import itertools
import json
import pathlib
from collections.abc import Callable, Iterable, Iterator, Sequence
from dataclasses import dataclass

from portal_field.counter import spreadsheet
from portal_field.counter.charts import Chart, Group, chart
from portal_field.counter.journal import Sums
from portal_field.lib.languages import Language
from portal_field.lib.message_marks import clerk_words

SPANS = {"day": clerk_words("By day"), "week": clerk_words("By week"), "month": clerk_words("By month")}
HEAD = (clerk_words("Day"), clerk_words("Vouchers sold"), clerk_words("Money in"),
        clerk_words("Vouchers taken back"), clerk_words("Money back"), clerk_words("In the drawer"))
FILE_HEAD = ("day", "sold", "sales", "refunded", "refunds", "net")
STEPS = {"day": HEAD[0], "week": clerk_words("Week"), "month": clerk_words("Month")}
MOST_AT_ONCE = 366      # days that the server adds up at once
MOST_DAYS = 366 * 40    # that the page asks for


def hundredths(text: str) -> int:
    """A sum of the server's table."""
    return int(text.replace(".", ""))


def days(text: str) -> list[Sums]:
    """The lines of the server's table, each with its day as `2026-01-05`."""
    rows = [line.split() for line in text.splitlines()[1:]]
    return [Sums(day, int(sold), hundredths(sales), int(refunded), hundredths(refunds))
            for day, sold, sales, refunded, refunds in (row for row in rows if len(row) == 5
                                                        and row[0] != "total")]


def parts(first: str, last: str) -> Iterator[dict[str, str]]:
    """The questions whose answers are those of all days: the server takes no more than a year at once. What
    are no days it refuses."""
    try:
        day, end = datetime.date.fromisoformat(first), datetime.date.fromisoformat(last)
    except ValueError:
        day, end = datetime.date.max, datetime.date.min
    if not 0 <= (end - day).days < MOST_DAYS:
        yield {"from": first, "to": last}
        return
    while day <= end:
        to = min(end, day + datetime.timedelta(MOST_AT_ONCE - 1))
        yield {"from": str(day), "to": str(to)}
        day = to + datetime.timedelta(1)


def added(name: str, rows: Iterable[Sums]) -> Sums:
    """The sums of several rows as one row."""
    listed = list(rows)
    return Sums(name, sum(row.sold for row in listed), sum(row.sales for row in listed),
                sum(row.refunded for row in listed), sum(row.refunds for row in listed))


def first_day(day: str, span: str) -> str:
    """The first day of the week (a Monday) or of the month in which a day is."""
    at = datetime.date.fromisoformat(day)
    back = {"week": at.weekday(), "month": at.day - 1}.get(span, 0)
    return str(at - datetime.timedelta(back))


def grouped(rows: list[Sums], span: str) -> list[Sums]:
    """Adds up the rows of each week or month, in their order; each has the name of its first day, and the
    first one begins where the table does."""
    found: dict[str, list[Sums]] = {}
    for row in rows:
        found.setdefault(first_day(row.name, span), []).append(row)
    return [added(these[0].name, these) for these in found.values()]


@dataclass(frozen=True)
class Line:
    """A line of the table: a step of time with its sums, or steps in which nothing was sold or paid back."""
    name: str
    sums: Sums
    empty: int = 0      # such steps


def name_of(day: str, span: str, language: Language, last: str = "") -> str:
    """A day, the days of a week, or a month by its name. `last`: the last day of all."""
    at = datetime.date.fromisoformat(day)
    if span == "month":
        return language.month(at)
    if span != "week":
        return language.day(at)
    end = datetime.date.fromisoformat(first_day(day, span)) + datetime.timedelta(6)
    end = min(end, datetime.date.fromisoformat(last)) if last else end
    return f"{language.day(at)} – {language.day(end)}"


def short_name(day: str, span: str, language: Language) -> str:
    """The same below a bar."""
    at = datetime.date.fromisoformat(day)
    return language.short_month(at) if span == "month" else language.short_day(at)


def is_empty(row: Sums) -> bool:
    """Whether nothing was sold or paid back."""
    return row.sold == row.refunded == row.sales == row.refunds == 0


def table(rows: list[Sums], span: str, language: Language, last: str) -> list[Line]:
    """The lines of the table: steps without sales that follow one another are one line."""
    made: list[Line] = []
    for empty, group in itertools.groupby(rows, is_empty):
        these = list(group)
        if empty:
            ends = [name_of(row.name, span, language, last) for row in (these[0], these[-1])]
            both = f"{ends[0].partition(' – ')[0]} – {ends[1].rpartition(' – ')[2]}"
            made.append(Line(both if len(these) > 1 else ends[0], these[0], len(these)))
        else:
            made += [Line(name_of(row.name, span, language, last), row) for row in these]
    return made


def bars(rows: list[Sums], span: str, language: Language, money: Callable[[int], str],
         last: str) -> Chart | None:
    """The bars of sales, up, and of refunds, down."""
    groups = [Group(name_of(row.name, span, language, last), short_name(row.name, span, language),
                    (row.sales, -row.refunds)) for row in rows]
    return chart(groups, ["sales", "refunds"], money, 100)


def two_weeks(rows: list[Sums], language: Language, money: Callable[[int], str]) -> Chart | None:
    """The sales of each day of this week beside those of the last one: fourteen rows from a Monday on."""
    groups = [Group(language.weekday(datetime.date.fromisoformat(now.name)),
                    language.weekday(datetime.date.fromisoformat(now.name)), (now.sales, before.sales))
              for before, now in zip(rows[:7], rows[7:])]
    return chart(groups, ["sales", "before"], money, 100)


def as_csv(rows: list[Sums], language: Language, separator: str = "", heads: Sequence[str] = ()) -> str:
    """For spreadsheets: dates as ISO 8601 has them. The heads of the English file are those that programs
    know; in other languages those after the first one may be given."""
    words = [language.say(HEAD[0]), *(heads or map(language.say, HEAD[1:]))]
    head = FILE_HEAD if language.tag == "en" else words
    return spreadsheet.as_csv(language, head, [
        [row.name, row.sold, spreadsheet.amount(row.sales), row.refunded, spreadsheet.amount(row.refunds),
         spreadsheet.amount(row.net)] for row in rows], separator)


def free_vouchers(path: str, day: datetime.date) -> int:
    """How many vouchers portal-give had the server sell for nothing on a day; 0 where it does not say so."""
    try:
        return int(json.loads(pathlib.Path(path).read_text()).get(str(day), 0))
    except (OSError, ValueError, AttributeError, TypeError):
        return 0


def difference(server: Sums, journal: Sums, language: Language, money: Callable[[int], str]) -> list[str]:
    """The server's takings beside the journal's sums, in words."""
    say = language.say
    pairs = ((server.sales, journal.sales,
              clerk_words("Sales: the server has %(sum)s more than the journal."),
              clerk_words("Sales: the journal has %(sum)s more than the server.")),
             (server.refunds, journal.refunds,
              clerk_words("Refunds: the server has %(sum)s more than the journal."),
              clerk_words("Refunds: the journal has %(sum)s more than the server.")))
    answer = [say(more if mine > other else less, sum=money(abs(mine - other)))
              for mine, other, more, less in pairs if mine != other]
    counts = [(server.sold, journal.sold), (server.refunded, journal.refunded), *(pair[:2] for pair in pairs)]
    if all(mine == other for mine, other in counts):
        return [say("The server's takings and the journal's sums are the same.")]
    if not answer:
        answer = [say("The sums are the same, and the numbers of vouchers differ.")]
    if any(mine > other for mine, other in counts):
        answer.append(say("The server has something that the journal does not have: it was not done on this "
                          "page, or the journal could not be written, or a form is still in doubt."))
    if any(mine < other for mine, other in counts):
        answer.append(say("The journal has something that the server does not have: an older copy of the "
                          "database was restored, or the answer came after midnight."))
        answer.append(say("What a restore undid is listed in undone.csv, beside the database that "
                          "portal-restore replaced: that money was taken or paid back all the same."))
    return answer
