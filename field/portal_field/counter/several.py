"""Sales and refunds of several vouchers by one form: each code has an idempotency key and a line in the
journal of its own, and a code that is refused does not hinder the others."""

from __future__ import annotations

import sqlite3
from dataclasses import dataclass
from typing import Any

from portal_field.counter.batch_sale import unused
from portal_field.counter.clerk import PASSED_OVER, Acts, Counter, Notice, base_of
from portal_field.counter.journal import DONE, Act
from portal_field.counter.scans import line_of
from portal_field.counter.sheet import rows as rows_of
from portal_field.lib import refusals
from portal_field.lib.desk_client import NoAnswer, Refused, Route, Routes
from portal_field.lib.forms import Form

MOST_LINES = 50         # of a list: a form with so many codes is shorter than a form may be
# Refusals of one code, which are said at its line.
OF_A_CODE = (*PASSED_OVER, "bad_code", "unknown_code")
NOT_REFUNDED = ("not_sold", "refunded", "nothing_left")


@dataclass(frozen=True)
class Line:
    """A code of a list. `price`: in hundredths, where it can be sold; `fault`: why it cannot."""
    code: str
    plan: str = ""
    price: int | None = None
    fault: str = ""
    is_lost: bool = False       # of a batch that is marked as lost: its sale asks first


def key_of(number: str, place: int) -> str:
    """The idempotency key of a code of a form, by its place in the list of all."""
    return f"{number}-{place + 1:03}"


def codes_of(text: str) -> list[str]:
    """The codes of a list, as a form and a look-up have it: each once, without blanks, in their order."""
    return list(dict.fromkeys(line_of(code) for code in text.split()))[:MOST_LINES]


class Several:
    """What the counter says of a list, and does with it."""

    def __init__(self, counter: Counter) -> None:
        self.counter = counter

    def lines(self, codes: list[str], acts: Acts) -> tuple[list[Line], bool]:
        """Each code with what can be done with it; and whether the server answered. The last one was scanned
        just now, so that the journal has a line of it."""
        found, prices = list[Line](), dict[str, int]()
        try:
            for code in codes:
                found.append(self.line(code, prices, acts if code == codes[-1] else Acts()))
        except NoAnswer:
            return [*found, *map(Line, codes[len(found):])], False
        return found, True

    def line(self, code: str, prices: dict[str, int], acts: Acts) -> Line:
        """A code with its plan and price, or with the reason why it cannot be sold."""
        try:
            reply = self.counter.voucher_of(code)
        except Refused as fault:
            acts.append(Act("look", "", fault.word))
            return Line(code, fault=self.said(fault.word))
        batch, plan = reply["batch"], reply["plan"]
        acts.append(Act("look", "", DONE, batch, plan, 1))
        if word := not_for_sale(reply, self.counter.is_late(reply)):
            return Line(code, plan, fault=self.said(word))
        if batch not in prices:
            prices[batch] = self.counter.price(batch)
        return Line(code, plan, prices[batch], is_lost=batch in self.counter.marks())

    def said(self, word: str) -> str:
        """The words for an error of one code, as its line has them."""
        return self.counter.say(refusals.of_word(word).cause, word=word)

    # Forms that act

    def sell(self, form: Form, number: str, acts: Acts) -> Notice:
        """Sells each code of the list that can be sold. A form sent again goes on where it broke off."""
        codes, counter = codes_of(form.word("codes")), self.counter
        rows, count, total = self.each("sell", Routes.SELL, codes, number, acts, OF_A_CODE)
        if not count:
            return Notice(False, (counter.say("Nothing was sold."),), rows=rows)
        line = counter.language.say_plural("%(num)s voucher sold.", "%(num)s vouchers sold.", count)
        return Notice(True, (line, counter.say("Take %(sum)s.", sum=counter.money(total))), rows=rows)

    def sell_batch(self, form: Form, number: str, acts: Acts) -> Notice:
        """All codes of a batch that can be sold; a form sent again goes on where it broke off, and no code is
        sold twice."""
        counter, say_plural, batch = self.counter, self.counter.language.say_plural, form.word("batch")
        listed = rows_of(counter.desk.request(Routes.PRINT, batch).decode())
        rows, count, total = self.each("sell", Routes.SELL, [row["code"] for row in listed], number, acts,
                                       PASSED_OVER, {"batch": batch, "plan": listed[0]["plan"], "codes": 1})
        line = say_plural("Batch %(batch)s: %(num)s code sold.", "Batch %(batch)s: %(num)s codes sold.",
                          count, batch=batch)
        left = say_plural("%(num)s code was sold before or is past its date.",
                          "%(num)s codes were sold before or are past their date.", len(rows) - count)
        return Notice(True, (line, counter.say("Take %(sum)s.", sum=counter.money(total)),
                             *([left] if len(rows) > count else [])), batch=batch)

    def refund(self, form: Form, number: str, acts: Acts) -> Notice:
        """Refunds each code of a batch that was sold and of which no use was redeemed."""
        counter, batch = self.counter, form.word("batch")
        rows, count, total = self.each("refund", Routes.REFUND, self.to_refund(form, base_of(number)), number,
                                       acts, NOT_REFUNDED)
        if not count:
            return Notice(False, (counter.say("Nothing was refunded."),))
        line = counter.language.say_plural("Batch %(batch)s: %(num)s code refunded.",
                                           "Batch %(batch)s: %(num)s codes refunded.", count, batch=batch)
        left = counter.language.say_plural("%(num)s code was refunded or used before.",
                                           "%(num)s codes were refunded or used before.", len(rows) - count)
        return Notice(True, (line, counter.say("Give back %(sum)s.", sum=counter.money(total)),
                             *([left] if len(rows) > count else [])))

    def to_refund(self, form: Form, number: str) -> list[str]:
        """The codes of a batch, each at its place, since its key is made of that; empty where it is not to be
        refunded. A form that began before is about the codes that it began with."""
        state, begun = unused(self.counter.desk, form.word("batch")), self.begun(number)
        codes = state.unused if begun or "again" in form else state.refundable
        return [code if code in codes and (not begun or key_of(number, place) in begun) else ""
                for place, code in enumerate(state.listed)]

    def begun(self, number: str) -> set[str]:
        """The keys with which a form began, by the journal."""
        try:
            return self.counter.journal.begun(number)
        except sqlite3.Error:
            return set()

    def is_begun(self, form: Form, number: str) -> bool:
        """Whether codes were sent by this form before. Then it goes on, and nothing is counted again."""
        return "again" in form or bool(self.begun(number))

    def done_before(self, number: str, act: str) -> set[str]:
        """The keys of a form that were carried out, by the journal."""
        try:
            steps = self.counter.journal.steps(number, act)
        except sqlite3.Error:
            return set()
        return {entry.request for entry in steps if entry.answer == DONE}

    def each(self, act: str, route: Route, codes: list[str], number: str, acts: Acts,
             of_a_code: tuple[str, ...], about: dict[str, Any] | None = None,
             ) -> tuple[tuple[tuple[str, str], ...], int, int]:
        """What came of each code, how many were accepted, and their sum. The journal has the keys before the
        first one is sent, and a line of each code once. `about`: what all of them are, where it is known."""
        counter, base = self.counter, base_of(number)
        keys = {key_of(base, place): code for place, code in enumerate(codes) if code}
        before = self.done_before(base, act)
        acts.begin(base, act, list(keys))
        rows, count, total = [], 0, 0
        try:
            for key, code in keys.items():
                try:
                    reply = counter.command(acts, act, route, {"code": code}, key, about)
                except Refused as fault:
                    if fault.word not in of_a_code:
                        raise
                    rows.append((code, self.said(fault.word)))
                else:
                    amount = int(reply.get("price", reply.get("amount", 0)))
                    rows.append((reply["code"], counter.money(amount)))
                    count, total = count + 1, total + amount
        finally:
            acts[:] = [done for done in acts if done.request not in before]
        return tuple(rows), count, total


def not_for_sale(voucher: dict[str, Any], is_late: bool) -> str:
    """The word of the error of a sale of this voucher; empty where it can be sold."""
    if voucher["refund"] is not None:
        return "refunded"
    if voucher["sold"] is not None:
        return "used_up" if voucher["redeemed"] == voucher["uses"] else "sold_already"
    return "expired" if is_late else ""
