"""Receipts: what a form sold or refunded, with the tax that is in it, and sums of them.

The prices of plans have the tax in them. Of each rate on a receipt the tax is gross * rate / (100 % + rate),
rounded to a hundredth, a half away from zero; net is the rest, so that net and tax are gross exactly. Sums of
a day or a shift add up the receipts, so that they are what the receipts say.
"""

from __future__ import annotations

import datetime
import time
from collections.abc import Iterable
from dataclasses import dataclass, replace

from portal_field.counter.journal import Journal, Sums, span_of

WHOLE = 10_000      # hundredths of a percent in one
NEWEST = 50         # that a page lists
RECEIPTS = """
SELECT receipts.number, series, receipts.place, receipts.moment, receipts.clerk, form, receipts.act, payment,
    drawer, shift, acts.plan, acts.price, receipt_lines.tax
FROM receipts JOIN receipt_lines ON receipt_lines.receipt = receipts.number
    JOIN acts ON acts.number = receipt_lines.entry WHERE {} ORDER BY receipts.number, acts.number"""

OF_BATCHES = """
SELECT min(acts.moment), acts.batch, acts.plan, count(*), sum(acts.price)
FROM receipt_lines JOIN acts ON acts.number = receipt_lines.entry
WHERE receipt_lines.receipt = ? GROUP BY acts.batch, acts.plan ORDER BY min(acts.number)"""
LOOKS = "SELECT count(*) FROM receipt_looks WHERE receipt = ?"


@dataclass(frozen=True)
class Line:
    """A voucher on a receipt. `price`: hundredths that were taken, or refunded; `tax`: hundredths of a
    percent."""
    plan: str
    price: int
    tax: int | None


@dataclass(frozen=True)
class OfBatch:
    """What the journal has of a receipt and a batch: when its first voucher was sold or refunded, how many
    they are, and their sum in hundredths."""
    moment: int
    batch: str
    plan: str
    codes: int
    sum: int


@dataclass(frozen=True)
class TaxSum:
    """What was taken at one rate, in hundredths; a refund is below zero. `rate`: hundredths of a percent."""
    rate: int | None
    net: int
    tax: int
    gross: int


@dataclass(frozen=True)
class Receipt:
    """A receipt of the journal. `number`: its line there; `name`: what is printed on it."""
    number: int
    series: str
    place: int
    moment: int
    clerk: str
    form: str
    act: str
    payment: str
    drawer: str
    shift: int
    lines: tuple[Line, ...] = ()

    @property
    def name(self) -> str:
        """Its series and its place there, as A12."""
        return f"{self.series}{self.place}"

    @property
    def sign(self) -> int:
        """-1 where money was refunded."""
        return -1 if self.act == "refund" else 1

    @property
    def total(self) -> int:
        """Hundredths; below zero where they were refunded."""
        return self.sign * sum(line.price for line in self.lines)

    @property
    def taxes(self) -> list[TaxSum]:
        """The sums of each rate, the highest first, and last what has no rate."""
        rates = {line.tax for line in self.lines}
        return [tax_sum(rate, self.sign * sum(line.price for line in self.lines if line.tax == rate))
                for rate in sorted(rates, key=order_of)]


def order_of(rate: int | None) -> int:
    """Rates from the highest down; what has none is last."""
    return 1 if rate is None else -rate


def tax_sum(rate: int | None, gross: int) -> TaxSum:
    """Divides what was paid into net and tax: rounded to a hundredth, a half away from zero."""
    part = abs(gross) * (rate or 0)
    tax = (2 * part + WHOLE + (rate or 0)) // (2 * (WHOLE + (rate or 0)))
    tax = -tax if gross < 0 else tax
    return TaxSum(rate, gross - tax, tax, gross)


def by_rate(receipts: Iterable[Receipt]) -> list[TaxSum]:
    """The sums of several receipts at each rate."""
    found: dict[int | None, list[TaxSum]] = {}
    for receipt in receipts:
        for one in receipt.taxes:
            found.setdefault(one.rate, []).append(one)
    return [TaxSum(rate, sum(one.net for one in found[rate]), sum(one.tax for one in found[rate]),
                   sum(one.gross for one in found[rate])) for rate in sorted(found, key=order_of)]


def by_payment(receipts: Iterable[Receipt]) -> list[Sums]:
    """What was sold and refunded by each kind of payment, in the order of their first receipts."""
    found: dict[str, list[Receipt]] = {}
    for receipt in receipts:
        found.setdefault(receipt.payment, []).append(receipt)
    return [sums_of(kind, these) for kind, these in found.items()]


def sums_of(name: str, receipts: list[Receipt]) -> Sums:
    """The vouchers and the money of receipts."""
    sold, back = ([one for one in receipts if one.sign == sign] for sign in (1, -1))
    return Sums(name, sum(len(one.lines) for one in sold), sum(one.total for one in sold),
                sum(len(one.lines) for one in back), -sum(one.total for one in back))


class Receipts:
    """The receipts of a journal."""

    def __init__(self, journal: Journal) -> None:
        self.journal = journal

    def where(self, condition: str, *values: int | str) -> list[Receipt]:
        """The receipts that a condition of SQL selects, in their order."""
        found: dict[int, Receipt] = {}
        lines: dict[int, list[Line]] = {}
        for row in self.journal.asked(RECEIPTS.format(condition), *values):
            receipt = Receipt(*row[:10])        # type: ignore[arg-type]
            found.setdefault(receipt.number, receipt)
            lines.setdefault(receipt.number, []).append(Line(*row[10:]))        # type: ignore[arg-type]
        return [replace(receipt, lines=tuple(lines[number])) for number, receipt in found.items()]

    def of_form(self, form: str) -> list[Receipt]:
        """Those of a form: more than one where it broke off and went on."""
        return self.where("form = ?", form)

    def one(self, number: int) -> Receipt | None:
        """The receipt of a line of the journal."""
        return next(iter(self.where("receipts.number = ?", number)), None)

    def named(self, series: str, place: int) -> Receipt | None:
        """The receipt of a series and a place there."""
        return next(iter(self.where("series = ? AND receipts.place = ?", series, place)), None)

    def of_batches(self, number: int) -> list[OfBatch]:
        """The lines of the journal behind a receipt, those of one batch and plan together."""
        rows = self.journal.asked(OF_BATCHES, number)
        return [OfBatch(*row) for row in rows]      # type: ignore[arg-type]

    def newest(self) -> list[Receipt]:
        """The last ones, the newest first."""
        last, = self.journal.asked("SELECT coalesce(max(number), 0) FROM receipts")[0]
        return self.where("receipts.number > ?", int(str(last)) - NEWEST)[::-1]

    def of_day(self, day: datetime.date) -> list[Receipt]:
        """Those of a local day."""
        return self.where("receipts.moment >= ? AND receipts.moment < ?", *span_of(day))

    def of_shift(self, shift: int) -> list[Receipt]:
        """Those of a shift."""
        return self.where("shift = ?", shift)

    def look(self, number: int, clerk: str) -> int:
        """Writes down that a receipt is shown to be printed; how often it was before."""
        with self.journal.opened() as link:
            link.execute("BEGIN IMMEDIATE")
            count, = link.execute(LOOKS, (number,)).fetchone()
            link.execute("INSERT INTO receipt_looks VALUES (NULL, ?, ?, ?)",
                         (number, int(time.time()), clerk))
        return int(count)
