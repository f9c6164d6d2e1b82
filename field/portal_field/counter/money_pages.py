"""What pages of sales and the cash-up ask about money: kinds of payment, the drawer, receipts."""

from __future__ import annotations

import datetime
from collections.abc import Callable
from typing import Any

import flask

from portal_field.counter import payment_sums, payments, receipt_text, spreadsheet
from portal_field.counter.clerk import Counter, Notice
from portal_field.counter.journal import Sums
from portal_field.counter.receipt_numbers import Till
from portal_field.counter.receipt_pages import ReceiptPages
from portal_field.counter.receipts import by_rate
from portal_field.counter.shift_pages import ShiftPages
from portal_field.counter.shifts import Shift
from portal_field.lib.forms import Form

Reply = flask.Response


class MoneyPages:
    """The pages of drawers, shifts and receipts, and what the others show of them."""

    def __init__(self, counter: Counter, show: Callable[..., Reply]) -> None:
        self.counter = counter
        self.shifts, self.receipts = ShiftPages(counter, show), ReceiptPages(counter, show)
        self.questions = {**self.shifts.questions, **self.receipts.questions}
        self.sent = self.shifts.sent

    def kinds(self) -> list[tuple[str, str]]:
        """The kinds of payment of which a clerk chooses one; none where there is one alone."""
        listed = payments.kinds(self.counter.conf)
        return [(kind, payments.words(self.counter.say, kind)) for kind in listed] if len(listed) > 1 else []

    def till(self, form: Form) -> Till:
        """What the receipt of a form has beside its lines."""
        return Till(form.get("request", ""), payments.chosen(self.counter.conf, form), self.shifts.drawer(),
                    self.counter.offers.rate_of)

    def no_such_payment(self, form: Form) -> Notice:
        """The venue has no such kind of payment, or no longer."""
        say = self.counter.say
        what = say("The venue has no kind of payment “%(kind)s”.", kind=form.get("payment", "")[:20])
        return Notice(False, (say("Nothing was done."), what))

    # The cash-up of a day

    def of_day(self, day: datetime.date, journal: Sums) -> dict[str, Any]:
        """What the receipts of a day add up to, by kind of payment and by rate of tax, and its shifts."""
        listed = self.receipts.receipts.of_day(day)
        return {"payments": payment_sums.rows(self.counter, listed, journal), "rates": by_rate(listed),
                "rate_words": self.rate_words, "shifts": self.shifts.shifts.of_day(day)}

    def rate_words(self, rate: int | None) -> str:
        """A rate of tax in words."""
        return receipt_text.rate_words(self.counter, rate)

    def cash_up_file(self, day: datetime.date, sums: dict[str, Any]) -> Reply:
        """The cash-up of a day as a file: a line for each number."""
        of_day, amount = self.of_day(day, sums["journal"]), spreadsheet.amount
        groups = [("server", [sums["server"]]), ("journal", [sums["journal"]]),
                  ("payment", of_day["payments"]), ("clerk", sums["clerks"]), ("plan", sums["plans"])]
        rows: list[list[spreadsheet.Cell]] = []
        for group, these in groups:
            for one in these:
                name = "" if group in ("server", "journal") else one.name
                rows += [[str(day), group, name, what, getattr(one, what)] for what in ("sold", "refunded")]
                rows += [[str(day), group, name, what, amount(getattr(one, what))]
                         for what in ("sales", "refunds", "net")]
        for rate in of_day["rates"]:
            rows += [[str(day), "tax", "" if rate.rate is None else amount(rate.rate), what, amount(each)]
                     for what, each in (("without tax", rate.net), ("tax", rate.tax),
                                        ("with tax", rate.gross))]
        for shift in of_day["shifts"]:
            rows += [[str(day), "shift", shift.number, what, amount(each)]
                     for what, each in self.numbers_of(shift)]
        text = spreadsheet.as_csv(self.counter.language, ["day", "group", "name", "what", "value"], rows,
                                  self.counter.conf.get("csv_separator", ""))
        return spreadsheet.answer(text, f"cash-up-{day}.csv")

    def numbers_of(self, shift: Shift) -> list[tuple[str, int]]:
        """The sums of a shift for a file."""
        drawer, closed = shift.drawer, shift.closed
        sums = [("float", drawer.float), ("cash sales", drawer.sales), ("cash refunds", drawer.refunds),
                ("put in", drawer.put_in), ("taken out", drawer.taken_out), ("due", drawer.due)]
        return [*sums, ("counted", closed.sum), ("difference", shift.difference)] if closed else sums
