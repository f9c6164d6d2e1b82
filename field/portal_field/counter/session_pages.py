"""The page of one session, open or ended: what became of it, and what can be done with it."""

from __future__ import annotations

from collections.abc import Callable
from typing import Any

import flask

from portal_field.counter import finding
from portal_field.counter.clerk import Counter, Notice
from portal_field.counter.receipts import Receipts
from portal_field.lib.desk_client import Refused, Routes
from portal_field.lib.forms import BadForm, Form
from portal_field.lib.message_marks import clerk_words
from portal_field.lib.typed_codes import DEVICE

Reply = flask.Response
# Why a session has ended, by the word of the server.
ENDED = {"time": clerk_words("its time was over"), "bytes": clerk_words("its data was used up"),
         "closed": clerk_words("it was closed")}


class SessionPages:
    """The page of a session; `show` makes a page by its template, and `sessions` that of all open ones."""

    def __init__(self, counter: Counter, receipts: Receipts, show: Callable[..., Reply],
                 sessions: Callable[..., Reply]) -> None:
        self.counter, self.receipts, self.show, self.sessions = counter, receipts, show, sessions

    def one(self, form: Form) -> Reply:
        """The session of a number, or the last one of a device. A number that is that of a receipt alone
        leads to the receipt."""
        number, device = form.get("number", ""), form.get("device", "")
        receipt = finding.receipt_named(self.receipts, number)
        try:
            details = self.details(number, device)
        except Refused as fault:
            if fault.status != 404:
                raise
            if receipt:
                return flask.make_response(flask.redirect(f"/receipt?number={receipt}", 303))
            return self.sessions(404, Notice(False, (self.words_of_none(number),)))
        return self.show("session.html", facts=self.facts(details), session=details["session"],
                         is_open=details["ended"] is None, receipt=receipt)

    def details(self, number: str, device: str) -> dict[str, Any]:
        """What the server says of the session. BadForm: neither a number nor a device is given."""
        if finding.SESSION.fullmatch(number):
            return self.counter.desk.request_json(Routes.SESSION, number)
        if DEVICE.fullmatch(device):
            return self.counter.desk.request_json(Routes.LAST_SESSION, query={"device": device})
        raise BadForm("number")

    def words_of_none(self, number: str) -> str:
        """That there is no such session."""
        if number:
            return self.counter.say("There is no session %(number)s.", number=number)
        return self.counter.say("This device has had no session yet.")

    def facts(self, details: dict[str, Any]) -> list[tuple[str, str]]:
        """What the page shows of a session, line by line."""
        say, language = self.counter.say, self.counter.language
        seconds, count = details.get("seconds-remaining"), details.get("bytes-remaining")
        rows = [(say("Device"), details["device"]), (say("Plan"), self.counter.plan_words(details["plan"])),
                (say("Opened"), language.moment(details["opened"])), (say("State"), self.state(details))]
        if seconds is not None:
            rows.append((say("Time left"), language.span(seconds)))
        if count is not None:
            rows.append((say("Data left"), language.volume(count)))
        return [*rows, (say("Used, by the last count"), language.volume(details["used"]))]

    def state(self, details: dict[str, Any]) -> str:
        """Whether the session is open, or why it has ended, and when where that is known."""
        word = details["ended"]
        if word is None:
            return self.counter.say("open")
        why = self.counter.say(ENDED[word])
        if "at" not in details:
            return self.counter.say("ended: %(why)s", why=why)
        at = self.counter.language.moment(details["at"])
        return self.counter.say("ended %(time)s: %(why)s", time=at, why=why)
