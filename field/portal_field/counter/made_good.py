"""A voucher for nothing in place of one that could not be used: of the plan that offers.toml names as
goodwill, with a reason that the journal keeps."""

from __future__ import annotations

import sqlite3
from typing import Any

from portal_field.counter.clerk import Acts, Counter, Notice, base_of
from portal_field.counter.reasons import Question
from portal_field.counter.sheet import rows
from portal_field.lib.desk_client import Refused, Routes
from portal_field.lib.forms import Form
from portal_field.lib.refusals import BY_WORD


class MadeGood:
    """What the counter asks before it replaces a voucher, and how it does it."""

    def __init__(self, counter: Counter) -> None:
        self.counter = counter

    def question(self, form: Form, batch: str) -> Question:
        """What is asked before the voucher of a code, or of a session, is replaced by one of this new
        batch."""
        say, plan = self.counter.say, self.counter.offers.goodwill
        hidden, facts = {"plan": plan, "batch": batch}, list[tuple[str, str]]()
        if "code" in form:
            voucher = self.voucher(form)
            heading, facts = say("Replace %(code)s", code=voucher["code"]), self.counter.facts(voucher)
            hidden["code"] = str(voucher["code"])
        else:
            number = form.whole("session")
            heading = f"{say('Replace')}: {say('Session %(number)s', number=number)}"
            hidden["session"] = str(number)
        if not plan:
            return Question(heading, facts, reasons=self.how_it_is_made())
        return Question(heading, [*facts, (say("New voucher"), plan)],
                        say("Give out a new voucher for nothing"), hidden)

    def how_it_is_made(self) -> tuple[str, ...]:
        """How a venue gets a plan of goodwill, for its owner."""
        say, named = self.counter.say, self.counter.offers.priced_goodwill
        why = say("The file offers.toml names %(plan)s as goodwill, and that plan has a price.",
                  plan=named) if named else say("This venue has no plan of which vouchers are replaced.")
        return (why, say("Its owner adds a plan with price = 0 to /etc/portal/plans.toml, for example with "
                         "id = \"sorry\", and the line goodwill = \"sorry\" at the top of "
                         "/etc/portal/offers.toml."),
                say("Then: systemctl restart portal-counter."))

    def voucher(self, form: Form) -> dict[str, Any]:
        """The voucher that is to be replaced. Refused: it was not sold, or its money was paid back."""
        voucher = self.counter.voucher_of(form.word("code"))
        word = "not_sold" if voucher["sold"] is None else "refunded" if voucher["refund"] is not None else ""
        if word:
            raise Refused(BY_WORD[word].status, word)
        return voucher

    def about(self, form: Form) -> str:
        """What the journal has of the one that is replaced: its batch, or `#` and the session's number."""
        return str(self.voucher(form)["batch"]) if "code" in form else f"#{form.whole('session')}"

    def words_of(self, about: str) -> str:
        """The same, as a page shows it."""
        say = self.counter.say
        return say("Session %(number)s", number=about[1:]) if about.startswith("#") else say(
            "Batch %(batch)s", batch=about)

    def is_begun(self, number: str) -> bool:
        """Whether this form was sent before. Then it goes on, though the plan was changed since."""
        try:
            return bool(self.counter.journal.begun(number))
        except sqlite3.Error:
            return False

    def replace(self, form: Form, number: str, acts: Acts) -> Notice:
        """A batch of one code of goodwill, issued and sold for nothing; a form sent again takes effect
        once."""
        counter, say, base, batch = self.counter, self.counter.say, base_of(number), form.word("batch")
        if not self.is_begun(base) and form.word("plan") != counter.offers.goodwill:
            return Notice(False, (say("Nothing was done."), say("The plan of goodwill was changed since.")))
        about = self.about(form)
        try:
            acts.explain(base, "replace", about, form.word("reason"))
        except sqlite3.Error as fault:
            return Notice(False, (say("Nothing was done."),
                                  say("The journal could not be written: %(why)s.", why=fault)))
        acts.begin(base, "replace", [base + "-001"])
        counter.issued(form, 1, base + "-001", acts, "replace")
        row, = rows(counter.desk.request(Routes.PRINT, batch).decode())
        acts.begin(base, "sell", [base + "-002"])
        reply = counter.sell_row(row, batch, base + "-002", acts)
        return Notice(True, (say("Made good: %(code)s.", code=reply["code"]), say("Take nothing.")),
                      batch=batch)
