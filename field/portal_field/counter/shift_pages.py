"""The pages of the drawer and its shifts."""

from __future__ import annotations

import re
import sqlite3
import time
import urllib.parse
from collections.abc import Callable
from dataclasses import dataclass, replace
from typing import Any

import flask

from portal_field.counter import fields, payments, reasons, receipt_text
from portal_field.counter.clerk import Counter, Notice
from portal_field.counter.journal import Sums
from portal_field.counter.receipts import Receipts, by_payment, by_rate
from portal_field.counter.shifts import NotThen, Shift, Shifts, drawers, hundredths
from portal_field.lib.desk_client import REQUEST_NUMBER, new_number
from portal_field.lib.forms import BadForm, Form
from portal_field.lib.message_marks import clerk_words

Reply = flask.Response
COOKIE = "drawer"       # the name of the drawer that stands beside this browser
KEPT = 400 * 86400      # seconds: as long as browsers keep a cookie (RFC 6265)
TYPED = ("float", "amount", "reason", "counted")     # the fields of the drawer's page
SUM = re.compile("-?[0-9]{1,12}")
SAID = {"open": clerk_words("The shift is open."), "in": clerk_words("It is put in."),
        "out": clerk_words("It is taken out."), "drawer": clerk_words("The drawer is chosen.")}
REFUSED = {"open": clerk_words("This drawer has an open shift already."),
           "closed": clerk_words("This shift is not open any more."),
           "due": clerk_words("Something was sold or refunded meanwhile. Look at the sums again.")}


@dataclass(frozen=True)
class State:
    """What each page says of the drawer beside this browser."""
    words: str
    is_fault: bool = False


class ShiftPages:
    """The drawer beside a browser, and its shifts; `show` makes a page by its template."""

    def __init__(self, counter: Counter, show: Callable[..., Reply]) -> None:
        self.counter, self.show = counter, show
        self.shifts, self.receipts = Shifts(counter.journal), Receipts(counter.journal)
        self.questions: dict[str, Callable[[Form], Reply]] = {
            "shift": self.shift, "shift-close": self.ask_close, "slip": self.slip}
        self.sent: dict[str, Callable[[Form], Reply]] = {
            "drawer": self.choose, "shift-open": self.open, "shift-move": self.move,
            "shift-close": self.close}

    def drawer(self) -> str:
        """The drawer beside this browser; empty where there is one without a name, or none was chosen."""
        listed = drawers(self.counter.conf)
        if len(listed) == 1:
            return listed[0]
        named = urllib.parse.unquote(flask.request.cookies.get(COOKIE, ""))
        return named if named in listed else ""

    def state(self) -> State | None:
        """Of the drawer beside this browser; None in a venue that has no shifts."""
        say, several = self.counter.say, len(drawers(self.counter.conf)) > 1
        try:
            drawer = self.drawer()
            if several and not drawer:
                return State(say("No drawer is chosen"), True)
            if not self.shifts.is_used(drawer):
                return State(say("Drawer %(name)s", name=drawer)) if several else None
            shift = self.shifts.open_one(drawer)
        except sqlite3.Error:
            return None
        if not shift:
            return State(say("No shift is open"), True)
        words = say("shift since %(time)s", time=self.counter.language.moment(shift.opened.moment))
        return State(": ".join(filter(None, (drawer, words))))

    def who(self, form: Form) -> tuple[str, str, str]:
        """The clerk, the clerk's computer, and the number of the form."""
        number, head = form.word("request"), flask.request.headers
        if not REQUEST_NUMBER.fullmatch(number):
            raise BadForm("request")
        return head.get("X-User", "?"), head.get("X-Real-IP", "?"), number

    def shift(self, form: Form, status: int = 200, notice: Notice | None = None, wrong: str = "") -> Reply:
        """The page of the drawer beside this browser, with what was typed."""
        said = SAID.get(form.get("said", ""))
        if said and not notice:
            notice = Notice(True, (self.counter.say(said),))
        drawer, listed = self.drawer(), drawers(self.counter.conf)
        is_chosen = len(listed) == 1 or bool(drawer)
        shift = self.shifts.open_one(drawer) if is_chosen else None
        return self.show(
            "shift.html", status, notice, typed={key: form.get(key, "") for key in TYPED}, wrong=wrong,
            name=drawer,
            drawers=listed if len(listed) > 1 else [],
            is_chosen=is_chosen, shift=shift, facts=self.facts(shift) if shift else [], number=new_number(),
            sums=self.by_kind(shift) if shift else [], newest=self.shifts.newest(), quiet=True,
            last=self.counter.typed_money(self.shifts.last_counted(drawer)), most=reasons.MOST_SIGNS)

    def by_kind(self, shift: Shift) -> list[Sums]:
        """What a shift took by each kind of payment."""
        return [replace(one, name=payments.words(self.counter.say, one.name))
                for one in by_payment(self.receipts.of_shift(shift.number))]

    def facts(self, shift: Shift) -> list[tuple[str, str]]:
        """What is in the drawer of a shift, line by line."""
        say, money, drawer = self.counter.say, self.counter.money, shift.drawer
        opened = f"{self.counter.language.moment(shift.opened.moment)}, {shift.opened.clerk}"
        return [*([(say("Drawer"), shift.opened.drawer)] if shift.opened.drawer else []),
                (say("Opened"), opened), (say("Money in the drawer at the beginning"), money(drawer.float)),
                (say("Sold for cash"), money(drawer.sales)),
                (say("Refunded in cash"), money(-drawer.refunds)),
                (say("Put in"), money(drawer.put_in)), (say("Taken out"), money(-drawer.taken_out)),
                (say("Should be there"), money(drawer.due))]

    def choose(self, form: Form) -> Reply:
        """Which drawer stands beside this browser."""
        name = form.word("drawer")
        if name not in drawers(self.counter.conf):
            raise BadForm("drawer")
        response = flask.make_response(flask.redirect("/shift?said=drawer", 303))
        response.set_cookie(COOKIE, urllib.parse.quote(name), max_age=KEPT, httponly=True, samesite="Strict",
                            secure=flask.request.headers.get("X-Scheme", "https") == "https")
        return response

    def bad_field(self, name: str, form: Form) -> Reply:
        """A field does not keep its rule: the page comes back with what was typed."""
        return self.shift(form, 400, Notice(False, fields.lines(self.counter.say, name, form)), name)

    def written(self, form: Form, act: str, drawer: str, amount: int, note: str = "",
                **more: Any) -> Reply | None:
        """Writes a line about a drawer. None: it is written; else the page that says why not."""
        say = self.counter.say
        try:
            self.shifts.write(act, drawer, amount, note, self.who(form), **more)
        except NotThen as fault:
            return self.shift(form, 409, self.not_then(fault.word))
        except sqlite3.Error as fault:
            return self.shift(form, 500, Notice(False, (say("Nothing was done."), say(
                "The journal could not be written: %(why)s.", why=fault))))
        return None

    def not_then(self, word: str) -> Notice:
        """Why a form about the drawer was not carried out."""
        words = REFUSED[word]
        return Notice(False, (self.counter.say("Nothing was done."), self.counter.say(words)))

    def open(self, form: Form) -> Reply:
        """Opens a shift with the money that is in the drawer."""
        amount, drawer = hundredths(form.get("float", "")), self.drawer()
        if amount is None:
            return self.bad_field("float", form)
        if len(drawers(self.counter.conf)) > 1 and not drawer:
            raise BadForm("drawer")
        return self.written(form, "open", drawer, amount) or flask.make_response(
            flask.redirect("/shift?said=open", 303))

    def move(self, form: Form) -> Reply:
        """Puts money into the drawer beside the sales, or takes it out, with a reason."""
        act, amount, shift = form.word("move"), hundredths(form.get("amount", "")), self.shift_of(form)
        if act not in ("in", "out"):
            raise BadForm("move")
        if not amount:
            return self.bad_field("amount", form)
        if lines := reasons.fault_of(self.counter, form.get("reason", "")):
            return self.shift(form, 400, Notice(False, lines), "reason")
        return self.written(form, act, shift.opened.drawer, amount, form["reason"], shift=shift.number,
                            ) or flask.make_response(flask.redirect(f"/shift?said={act}", 303))

    def shift_of(self, form: Form) -> Shift:
        """The shift that a form names. BadForm: there is none."""
        shift = self.shifts.one(form.whole("shift"))
        if not shift or shift.opened.number != form.whole("shift"):
            raise BadForm("shift")
        return shift

    def ask_close(self, form: Form, status: int = 200, notice: Notice | None = None) -> Reply:
        """What was counted beside what should be there, before the shift is closed."""
        shift, counted = self.shift_of(form), hundredths(form.get("counted", ""))
        if shift.closed:
            return self.leads_to_slip(shift.number)
        if counted is None:
            return self.bad_field("counted", form)
        say, money, due = self.counter.say, self.counter.money, shift.drawer.due
        facts = [*self.facts(shift), (say("Counted in the drawer"), money(counted)),
                 (say("Difference"), self.difference(counted - due))]
        hidden = {"shift": str(shift.number), "counted": self.counter.typed_money(counted), "due": str(due)}
        return self.show("shift_close.html", status, notice, facts=facts, most=reasons.MOST_SIGNS,
                         hidden=hidden, number=form.get("request") or new_number(),
                         typed=form.get("note", ""))

    def difference(self, amount: int) -> str:
        """A difference in words: who reads a sign alone may take it for the other one."""
        say, money = self.counter.say, self.counter.money
        if amount == 0:
            return say("no difference")
        return say("%(sum)s too much", sum=money(amount)) if amount > 0 else say("%(sum)s missing",
                                                                                 sum=money(-amount))

    def close(self, form: Form) -> Reply:
        """Closes a shift, where what should be there is still what the page said."""
        before, shift = self.shifts.before(self.who(form)[2]), self.shift_of(form)
        if before:
            return self.leads_to_slip(shift.number)
        counted, note, due = hundredths(form.get("counted", "")), form.get("note", ""), form.word("due")
        if counted is None or not SUM.fullmatch(due):
            raise BadForm("counted")
        if note and (lines := reasons.fault_of(self.counter, note)):
            form["note"] = "" if reasons.has_scan(self.counter, note) else note
            return self.ask_close(form, 400, Notice(False, lines))
        if not shift.closed and shift.drawer.due != int(due):
            return self.ask_close(form, 409, self.not_then("due"))
        return self.written(form, "close", shift.opened.drawer, counted, note, shift=shift.number,
                            due=int(due)) or self.leads_to_slip(shift.number)

    def leads_to_slip(self, shift: int) -> Reply:
        """To the page of a shift that is printed."""
        return flask.make_response(flask.redirect(f"/slip?shift={shift}", 303))

    def slip(self, form: Form) -> Reply:
        """A shift on one page, to print and to sign."""
        shift = self.shift_of(form)
        facts, closed, say = self.facts(shift), shift.closed, self.counter.say
        if closed:
            facts.append((say("Counted in the drawer"), self.counter.money(closed.sum)))
            facts.append((say("Difference"), self.difference(shift.difference)))
            facts.append((say("Closed"), f"{self.counter.language.moment(closed.moment)}, {closed.clerk}"))
            facts += [(say("Note"), closed.note)] if closed.note else []
        listed = self.receipts.of_shift(shift.number)
        return self.show("slip.html", shift=shift, facts=facts, sums=self.by_kind(shift),
                         rates=by_rate(listed),
                         rate_words=lambda rate: receipt_text.rate_words(self.counter, rate),
                         ends=[listed[0].name, listed[-1].name] if listed else [], now=time.time())
