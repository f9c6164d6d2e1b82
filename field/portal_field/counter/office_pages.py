"""The page of the office, over the view of all venues: takings by venue and day, week beside week, who is
silent, which certificate ends; and the takings as a file."""

from __future__ import annotations

import datetime
import time
from dataclasses import dataclass, field
from typing import TYPE_CHECKING

import flask

from portal_field.counter import office_client, silent_reasons, spreadsheet
from portal_field.counter.charts import Chart, Group, chart
from portal_field.counter.clerk import Notice
from portal_field.counter.office_client import Takings, Week
from portal_field.counter.parts_client import NoPart
from portal_field.lib import local_time
from portal_field.lib.forms import BadForm, Form
from portal_field.lib.message_marks import clerk_words

if TYPE_CHECKING:
    from portal_field.counter.page import Pages

Reply = flask.Response
DAYS, MOST_DAYS = 7, 1100
DAY = datetime.timedelta(days=1)
SOON = 21 * 86400       # seconds before the end of a certificate
FILE_HEAD = ("venue", "house", "currency", "day", "sold", "sales", "refunded", "refunds", "net", "from_copy")
HEAD = (clerk_words("Venue"), clerk_words("House"), clerk_words("Currency"), clerk_words("Day"),
        clerk_words("Vouchers sold"), clerk_words("Money in"), clerk_words("Vouchers refunded"),
        clerk_words("Money back"), clerk_words("Net"), clerk_words("From a copy"))


@dataclass
class Line:
    """A venue's week: the net of each day, nothing where it took nothing, and whether a day was read from a
    copy; the sums of this week and of the one before."""
    name: str
    house: str
    is_silent: bool = False
    is_open: bool = True
    days: list[int | None] = field(default_factory=lambda: [None] * DAYS)
    copied: list[bool] = field(default_factory=lambda: [False] * DAYS)
    before: int = 0

    @property
    def net(self) -> int:
        """The sum of the week."""
        return sum(day or 0 for day in self.days)


@dataclass
class Currency:
    """The venues of one currency: a line of each, the sums of each day of both weeks, and bars of them."""
    code: str
    lines: dict[str, Line] = field(default_factory=dict)
    now: list[int] = field(default_factory=lambda: [0] * DAYS)
    last: list[int] = field(default_factory=lambda: [0] * DAYS)
    chart: Chart | None = None

    @property
    def is_copied(self) -> bool:
        """Whether a day of this week was read from a copy."""
        return any(any(line.copied) for line in self.lines.values())


def monday_of(day: datetime.date) -> datetime.date:
    """The first day of the week of a day."""
    return day - datetime.timedelta(day.weekday())


def currencies(week: Week, monday: datetime.date) -> list[Currency]:
    """The takings of both weeks by currency; a venue that took nothing has a line too."""
    found: dict[str, Currency] = {}
    for venue in week.venues:
        lines = found.setdefault(venue.currency, Currency(venue.currency)).lines
        lines[venue.name] = Line(venue.name, venue.house, venue.is_silent, venue.is_open)
    for row in week.takings:
        group = found.setdefault(row.currency, Currency(row.currency))
        line = group.lines.setdefault(row.venue, Line(row.venue, row.house))
        at = (row.day - monday).days
        if at >= 0:
            line.days[at], line.copied[at] = row.net, row.from_copy
            group.now[at] += row.net
        else:
            line.before += row.net
            group.last[at + DAYS] += row.net
    return [found[code] for code in sorted(found)]


def as_csv(rows: list[Takings], pages: Pages) -> str:
    """The takings as a file. The heads of the English one are those of `portal-venues report`."""
    language, separator = pages.counter.language, pages.counter.conf.get("csv_separator", "")
    head = FILE_HEAD if language.tag == "en" else [language.say(word) for word in HEAD]
    return spreadsheet.as_csv(language, head, [
        [row.venue, row.house, row.currency, str(row.day), row.sold, spreadsheet.amount(row.sales),
         row.refunded, spreadsheet.amount(row.refunds), spreadsheet.amount(row.net), int(row.from_copy)]
        for row in rows], separator)


class OfficePages:
    """The pages of the office."""

    def __init__(self, page: Pages) -> None:
        self.page, self.say, self.language = page, page.counter.say, page.counter.language

    @property
    def socket(self) -> str:
        """Where the view is read. NoPart: this counter has none."""
        if path := self.page.counter.conf.get("office", ""):
            return str(path)
        raise NoPart("the venues by name have a view of all venues, and this one has no name")

    def without_view(self, fault: NoPart) -> Reply:
        """The page where the view cannot be read. The counters go on without it."""
        self.page.note(f"the view of all venues: {fault}")
        lines = (self.say("The view of all venues cannot be read."),
                 self.say("Why: %(reason)s.", reason=fault),
                 self.say("The counters of the venues go on without it. Try again in some minutes."))
        return self.page.show("notice.html", 503, Notice(False, lines))

    def not_understood(self, line: str) -> Reply:
        """The page of this week, with what is wrong with the days that were asked for."""
        return self.week(local_time.today(), Notice(False, (line,)), 400)

    def show(self) -> Reply:
        """The page of a week, by any of its days; of this week where none is named."""
        try:
            form = Form.from_query(flask.request)
            day = form.day("week") if form.get("week") else local_time.today()
            return self.week(day)
        except BadForm:
            return self.not_understood(self.say("A day is missing, or is none."))

    def week(self, day: datetime.date, notice: Notice | None = None, status: int = 200) -> Reply:
        """The page of the week of a day."""
        monday, today = monday_of(day), local_time.today()
        try:
            week = office_client.week(self.socket, monday)
        except NoPart as fault:
            return self.without_view(fault)
        groups, days = currencies(week, monday), [monday + at * DAY for at in range(DAYS)]
        for group in groups:
            group.chart = self.bars(group, days)
        is_now = monday == monday_of(today)
        return self.page.show(
            "office.html", status, notice, monday=monday, today=today, groups=groups, week=week,
            head=self.head(days), is_now=is_now, part=today.weekday() + 1, weeks=self.weeks(monday, today),
            year_ago=today - 365 * DAY, **self.rows_of(week))

    def head(self, days: list[datetime.date]) -> list[str]:
        """The head of the table of a week."""
        say, language = self.say, self.language
        return [say("Venue"), say("Week"), say("Before"),
                *(f"{language.weekday(day)} {day.day}" for day in days)]

    def weeks(self, monday: datetime.date, today: datetime.date) -> list[tuple[datetime.date, str]]:
        """The weeks that the page leads to: the one before, and where that has begun the one after and this
        one."""
        found = [(monday - DAYS * DAY, self.say("The week before"))]
        if monday + DAYS * DAY <= today:
            found.append((monday + DAYS * DAY, self.say("The week after")))
        if monday_of(today) not in (monday, monday + DAYS * DAY):
            found.append((monday_of(today), self.say("This week")))
        return found

    def rows_of(self, week: Week) -> dict[str, list[tuple[object, ...]]]:
        """What the office should know beside the takings, in words."""
        say, language, now = self.say, self.language, time.time()
        money, code = language.money, {venue.name: venue.currency for venue in week.venues}
        return {
            "silent": [(venue, machine, language.moment(seen) if seen else say("never"),
                        silent_reasons.in_words(say, why))
                       for venue, machine, seen, why in week.silent],
            "certificates": [(machine, language.day(local_time.local(ends).date()),
                              language.span(int(ends - now)) if ends > now else say("it has ended"),
                              ends < now + SOON) for machine, ends in week.certificates],
            "changed": [(venue, language.day(day), money(was, code.get(venue, "")),
                         money(net, code.get(venue, "")), language.moment(seen))
                        for venue, day, seen, was, net in week.changed],
            "older": [(venue, language.moment(was), language.moment(as_of), language.moment(seen))
                      for venue, seen, was, as_of in week.older]}

    def bars(self, group: Currency, days: list[datetime.date]) -> Chart | None:
        """Bars of the net of all venues of a currency, on each day beside that of the week before. The values
        of the lines across are without hundredths and without the currency, which stands above."""
        names = [self.language.weekday(day) for day in days]
        return chart([Group(name, name, pair) for name, pair in zip(names, zip(group.now, group.last))],
                     ["sales", "before"], lambda sum: self.language.money(sum, group.code), 100,
                     tick=lambda sum: self.language.number(sum // 100))

    def file(self) -> Reply:
        """The takings of each venue and day, as a file."""
        try:
            form = Form.from_query(flask.request)
            first, last = form.day("from"), form.day("to")
        except BadForm:
            return self.not_understood(self.say("A day is missing, or is none."))
        if not 0 <= (last - first).days < MOST_DAYS:
            return self.not_understood(self.say("The last day is not before the first one, and a file has at "
                                                "most three years."))
        try:
            rows = office_client.takings(self.socket, first, last)
        except NoPart as fault:
            return self.without_view(fault)
        return spreadsheet.answer(as_csv(rows, self.page), f"venues-{first}-{last}.csv")


def add(app: flask.Flask, page: Pages) -> None:
    """The pages of the office."""
    office = OfficePages(page)
    app.add_url_rule("/office", "see office", office.show)
    app.add_url_rule("/office.csv", "office file", office.file)
