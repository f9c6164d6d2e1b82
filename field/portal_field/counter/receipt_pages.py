"""The pages of receipts."""

from __future__ import annotations

import sqlite3
import time
from collections.abc import Callable

import flask

from portal_field.counter import payments, receipt_text
from portal_field.counter.clerk import Counter
from portal_field.counter.receipts import Receipt, Receipts
from portal_field.lib import local_time
from portal_field.lib.forms import BadForm, Form

Reply = flask.Response


class ReceiptPages:
    """Receipts that are printed; `show` makes a page by its template."""

    def __init__(self, counter: Counter, show: Callable[..., Reply]) -> None:
        self.counter, self.show, self.receipts = counter, show, Receipts(counter.journal)
        self.questions: dict[str, Callable[[Form], Reply]] = {
            "receipt": self.receipt, "receipts": self.listed, "receipt.css": self.style}

    def receipts_of(self, form: str) -> tuple[tuple[int, str], ...]:
        """The receipts of a form that can be printed: of each its number, and the words of its link."""
        try:
            found = self.receipts.of_form(form)
        except sqlite3.Error:
            return ()
        return tuple((one.number, self.words_of_link(one)) for one in found)

    def words_of_link(self, receipt: Receipt) -> str:
        """The words of the link to a receipt, with its kind of payment where there are several."""
        say = self.counter.say
        if len(payments.kinds(self.counter.conf)) == 1:
            return say("Print receipt %(name)s", name=receipt.name)
        return say("Print receipt %(name)s (%(kind)s)", name=receipt.name, kind=self.words(receipt.payment))

    def listed(self, _: Form) -> Reply:
        """The newest receipts."""
        return self.show("receipts.html", receipts=self.receipts.newest(), words=self.words)

    def words(self, kind: str) -> str:
        """A kind of payment in words."""
        return payments.words(self.counter.say, kind)

    def receipt_of(self, form: Form) -> Receipt:
        """The receipt that a form names. BadForm: there is none."""
        receipt = self.receipts.one(form.whole("number"))
        if not receipt:
            raise BadForm("number")
        return receipt

    def size(self, form: Form) -> str:
        """The paper of a receipt: that of the form, or of the venue."""
        named, conf = form.get("size", ""), self.counter.conf
        own = conf.get("receipt_size") or conf.get("voucher_size", "")
        return next((size for size in (named, own) if size in receipt_text.COLUMNS), "receipt80")

    def receipt(self, form: Form) -> Reply:
        """A receipt to print. It is the receipt once, and each time after that a copy."""
        receipt, size, copied = self.receipt_of(form), self.size(form), ""
        clerk = flask.request.headers.get("X-User", "?")
        try:
            looks = self.receipts.look(receipt.number, clerk)
        except sqlite3.Error:
            looks = 1       # nothing says that it is the first one
        if looks:
            copied = self.counter.language.moment(time.time())
        lines = receipt_text.text_of(self.counter, receipt, size, copied)
        say = self.counter.say
        return self.show("receipt.html", receipt=receipt, lines=lines, size=size, copied=copied,
                         what=say("sold") if receipt.sign > 0 else say("refunded"),
                         batches=self.receipts.of_batches(receipt.number),
                         day=local_time.local(receipt.moment).date())

    def style(self, form: Form) -> Reply:
        """The style sheet of a receipt of so many lines."""
        response = flask.make_response(receipt_text.style(self.size(form), min(form.whole("lines"), 10_000)))
        response.headers["Content-Type"] = "text/css; charset=utf-8"
        return response
