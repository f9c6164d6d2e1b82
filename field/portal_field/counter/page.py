"""The counter's page: look up, sell, refund, issue and print, close, takings, cash up, open sessions.

It holds the desk's token, listens on a socket that nginx alone may open, and is served on the counter's
network only. Each form carries an idempotency key: a form sent twice takes effect once, and a form in doubt
comes back to be sent again.
"""

from __future__ import annotations

import contextlib
import datetime
import pathlib
import sqlite3
import sys
import threading
import time
from collections.abc import Callable, Sequence
from dataclasses import replace
from typing import Any

import flask

from portal_field.counter import (
    clerks, confirmation, entrance, fields, figures, finding, form_token, office_pages, own_account,
    payment_sums, payments, plan_pages, printing, reasons, redemptions, repetition, roles, scans,
    sign_in_pages, spreadsheet, takings, venue_pages)
from portal_field.counter.batch_pages import BatchPages
from portal_field.counter.clerk import STATE, Acts, Counter, Notice
from portal_field.counter.journal import Act, Entry
from portal_field.counter.labels import PAPERS
from portal_field.counter.logins import IDLE_MINUTES, AccountsFile, Logins
from portal_field.counter.lost import LostBatches
from portal_field.counter.made_good import MadeGood
from portal_field.counter.money_pages import MoneyPages
from portal_field.counter.origin import is_from_our_page
from portal_field.counter.pictures import qr_picture
from portal_field.counter.session_pages import SessionPages
from portal_field.counter.setting_files import SettingFiles
from portal_field.counter.several import MOST_LINES, Several, codes_of
from portal_field.counter.sheet import Sheet
from portal_field.lib import local_time, refusals, web
from portal_field.lib.desk_client import (
    REQUEST_NUMBER, Desk, NoAnswer, Refused, credential, new_number, settings)
from portal_field.lib.forms import BadForm, Form
from portal_field.lib.message_marks import clerk_words
from portal_field.lib.typed_codes import DEVICE, scanned_code_beside, without_codes
from portal_field.settings.accounts import OFFICE

HERE = pathlib.Path(__file__).resolve().parent
Reply = flask.Response
ACTIONS = {"sell": clerk_words("Sell"), "refund": clerk_words("Refund"), "close": clerk_words("Close"),
           "issue": clerk_words("Issue a batch"), "now": clerk_words("Sell one now"),
           "sell-batch": clerk_words("Sell a whole batch"), "sell-several": clerk_words("Sell several"),
           "refund-batch": clerk_words("Refund the unused codes of a batch"),
           "replace": clerk_words("Replace"), "lost": clerk_words("Mark as lost"),
           "found": clerk_words("Take the mark off"),
           "time": clerk_words("The time is right")}
# In the journal: what was done, and its answers that are no refusal.
DEEDS = {"issue": clerk_words("issued"), "one": clerk_words("issued for one sale"),
         "replace": clerk_words("issued to make good"), "lost": clerk_words("marked as lost"),
         "found": clerk_words("mark taken off"),
         "sell": clerk_words("sold"),
         "refund": clerk_words("refunded"), "close": clerk_words("session closed"),
         "time": clerk_words("time confirmed"),
         "print": clerk_words("sheet shown"), "look": clerk_words("looked up"),
         "login": clerk_words("log-in"), "logout": clerk_words("log-out"), "lock": clerk_words("locked"),
         "unlock": clerk_words("lock taken off"), "password": clerk_words("own password changed"),
         "pin": clerk_words("own PIN changed"), "account": clerk_words("account written"),
         "account_gone": clerk_words("account taken away"), "settings": clerk_words("settings written"),
         "wrong_word": clerk_words("wrong password or PIN"),
         "done": clerk_words("done"), "no_answer": clerk_words("no answer")}

SECTIONS = {"issue": "vouchers", "batches": "vouchers", "batch": "vouchers", "sheet": "vouchers",
            "sheet.pdf": "vouchers", "sell-batch": "vouchers", "refund-batch": "vouchers",
            "lost": "vouchers",
            "close": "sessions", "replace-session": "sessions", "takings": "money", "takings.csv": "money",
            "cash-up": "money", "cash-up.csv": "money"}
MOST_ROWS = 100     # sessions that a page shows
NOTHING = Form()


def typed(form: Form) -> dict[str, str]:
    """What was typed into the fields of a page, each by its name."""
    return {name: readable(form.get(name, "")) for name in (*fields.RULES, "plan", "by")}


def readable(text: str) -> str:
    """A field of a form: one line, and no longer than any code or name."""
    return (text if text.isprintable() else ascii(text))[:48]


def logged(form: Form, about: Act | Entry | None = None) -> str:
    """The fields of a form for the log. A code is worth money until it is redeemed: its batch and plan stand
    in its place."""
    hidden = ("request", "next", "again", "code", "codes", "kept", "out", "reason", "lost")
    code = "a code" if "code" in form else ""
    if "codes" in form:
        code = f"{len(codes_of(form['codes']))} codes"
    if about and about.batch and "code" in form:
        code = without_codes(f"{about.batch}, {about.plan}")
    return ", ".join(filter(None, (code, *(readable(without_codes(form[key])) for key in form
                                           if key not in hidden))))


def name_of_one() -> str:
    """The batch of a voucher that is issued and sold by itself."""
    return f"{local_time.local():one-%Y%m%d-%H%M%S-}" + new_number()[:6]


class Pages:
    """Answers to the requests that nginx lets through."""

    def __init__(self, counter: Counter) -> None:
        self.counter, self.several, self.made_good = counter, Several(counter), MadeGood(counter)
        lost, self.money_pages = LostBatches(counter), MoneyPages(counter, self.show)
        self.receipts = self.money_pages.receipts.receipts
        batch_pages = self.batch_pages = BatchPages(counter, self.show, self.home, self.keep)
        session_pages = SessionPages(counter, self.receipts, self.show, self.sessions)
        self.actions: dict[str, Callable[[Form, str, Acts], Notice]] = {
            "sell": counter.sell, "refund": counter.refund, "close": counter.close, "issue": counter.issue,
            "now": counter.sell_one_now, "time": counter.time_is_right, "sell-batch": self.several.sell_batch,
            "sell-several": self.several.sell, "refund-batch": self.several.refund,
            "replace": self.made_good.replace, "lost": lost.mark, "found": lost.take_off}
        # Those with a reason that is typed: the page that asks for it.
        self.reasons: dict[str, Callable[[Form], reasons.Question]] = {
            "replace": lambda form: self.made_good.question(form, form.get("batch") or name_of_one()),
            "lost": lost.question, "found": lost.question}
        self.questions: dict[str, Callable[[Form], Reply]] = {
            "voucher": self.voucher, "sheet": self.sheet, "sheet.pdf": self.sheet_file,
            "takings": self.takings,
            "takings.csv": self.takings_file,
            "cash-up": self.cash_up, "cash-up.csv": self.cash_up_file, "batches": batch_pages.batches,
            "batch": batch_pages.batch,
            "codes": lambda form: batch_pages.codes(form) if "code" in form else self.scan_again(),
            "venue": self.venue,
            "vouchers": lambda _: self.vouchers(), "money": lambda _: self.money(),
            "sessions": lambda form: self.sessions(form=form), "session": session_pages.one,
            "next": lambda _: self.leads_to(""),
            "shown": self.shown, "several": self.listed, "scanner": lambda _: self.scanner(),
            "lost": lambda form: self.ask_reason("lost", form),
            "replace": self.replacement, "replace-session": self.replacement,
            **{name: self.confirm(name) for name in confirmation.PAGES}, **self.money_pages.questions}
        # Forms that do nothing: what they have must not stand in an address.
        self.sent: dict[str, Callable[[Form], Reply]] = {
            "voucher": self.look_up, "next": self.next_customer, "scanner": self.test_scanner,
            **self.money_pages.sent}

    def show(self, template: str, status: int = 200, notice: Notice | None = None, **values: Any) -> Reply:
        """A page by its template, in the counter's language."""
        language, lost = self.counter.language, flask.g.get("lost")
        if lost:
            notice = replace(notice, lines=(*notice.lines, lost)) if notice else Notice(False, (lost,))
        text = flask.render_template(template, language=language, _=language.say,
                                     say_plural=language.say_plural, notice=notice,
                                     clerk=self.clerk,
                                     conf=self.counter.conf, money=self.counter.money,
                                     plan_name=self.counter.plan_name, plan_words=self.counter.plan_words,
                                     kinds=self.money_pages.kinds(),
                                     drawer=self.money_pages.shifts.state() if roles.may("shift") else None,
                                     **values)
        return flask.make_response(text, status)

    @property
    def clerk(self) -> str:
        """Who is logged in; empty on a page for somebody else."""
        return flask.request.headers.get("X-User", "")

    def home(self, status: int = 200, notice: Notice | None = None, code: str = "",
             waits: Any = None) -> Reply:
        """The first page, with a notice above it; of the office the notice alone, as it sells nothing."""
        counter = self.counter
        if roles.role() == OFFICE:
            return self.show("notice.html", status, notice)
        return self.show("home.html", status, notice, plans=counter.offers.offered_prices, code=code,
                         waits=waits, numbers=[new_number()], one=name_of_one(), sessions=counter.sessions())

    # The pages of the sections, each with a notice above it, and with what was typed

    def vouchers(self, status: int = 200, notice: Notice | None = None, wrong: str = "",
                 form: Form = NOTHING) -> Reply:
        """Batches: to issue one, to print one, to sell or refund one as a whole."""
        return self.show("vouchers.html", status, notice, plans=self.counter.offers.offered_prices,
                         typed=typed(form), wrong=wrong, number=new_number(),
                         batch=f"{local_time.local():b-%Y%m%d-%H%M%S}", **self.batch_pages.newest())

    def sessions(self, status: int = 200, notice: Notice | None = None, wrong: str = "",
                 form: Form = NOTHING) -> Reply:
        """The open sessions that have what is looked for, the first ones of them. A whole device or number
        that none of them has leads to the page of its session, which has ended."""
        sessions, find = self.counter.sessions(), form.get("find", "").strip().lower().replace("-", ":")
        found = [row for row in sessions["rows"] or () if find in row["device"] or find in str(row["number"])]
        if not found and (DEVICE.fullmatch(find) or finding.SESSION.fullmatch(find)):
            place = finding.place_of(self.counter, self.receipts, find)
            return flask.make_response(flask.redirect(place, 303))
        return self.show("sessions.html", status, notice, sessions=sessions, rows=found[:MOST_ROWS],
                         left=max(0, len(found) - MOST_ROWS), find=form.get("find", ""), typed=typed(form),
                         wrong=wrong)

    def money(self, status: int = 200, notice: Notice | None = None, wrong: str = "",
              form: Form = NOTHING) -> Reply:
        """What was taken: by days, and the cash-up of one."""
        return self.show("money.html", status, notice, day=str(local_time.today()), spans=takings.SPANS,
                         weeks=figures.weeks(self.counter, local_time.today()), typed=typed(form),
                         wrong=wrong)

    def venue(self, _: Form) -> Reply:
        """How the venue's machine is."""
        return self.show("venue.html", facts=self.counter.state_of_venue())

    def form_page(self, status: int, notice: Notice, wrong: str, form: Form) -> Reply:
        """The page that has the form of this address, with what was typed; or else the first page."""
        page = SECTIONS.get(flask.request.path.strip("/"))
        if not page:
            return self.home(status, notice)
        return getattr(self, page)(status, notice, wrong, form)     # type: ignore[no-any-return]

    def first(self) -> Reply:
        """The first page, with what keeps the server from serving."""
        counter = self.counter
        return self.home(notice=counter.first_notice(),
                         waits=counter.server_waits(counter.notes.read("state")))

    # Questions

    def look_up(self, form: Form) -> Reply:
        """What was typed or scanned: to its page, which Back and reload show again. Beside the first signs of
        a code, `start`, its next signs are enough."""
        typed = finding.after(form["start"], form.word("code")) if form.get("start") else form.word("code")
        return self.leads_to(scans.code_in(typed, form.get("kept", "")))

    def voucher(self, form: Form) -> Reply:
        """The page of one voucher, by its code or the number of a look-up."""
        if "code" not in form:
            return self.scan_again()
        acts = Acts(self.begin)
        try:
            found = self.counter.look_up(form, acts)
        finally:
            self.keep(acts)
        return self.show("voucher.html", facts=self.counter.facts(found["voucher"]), number=new_number(),
                         look=form["look"], is_lost=found["voucher"]["batch"] in self.counter.marks(),
                         **found, **redemptions.listed(self.counter, found["voucher"]))

    def scan_again(self) -> Reply:
        """The code of a look-up is not kept, or no longer."""
        return self.home(404, Notice(False, (self.counter.say("Scan or type the code again."),)))

    def sheet(self, form: Form) -> Reply:
        """The sheet of a batch."""
        return self.printed(form)

    def printed(self, form: Form, notice: Notice | None = None) -> Reply:
        """The sheet of a batch, on the paper that the form or the venue names."""
        return self.sheet_page(self.sheet_of(form), notice)

    def sheet_of(self, form: Form) -> Sheet:
        """The sheet of a batch, which the journal has as shown."""
        acts = Acts(self.begin)
        sheet = self.counter.sheet(form, acts)
        self.keep(acts)
        return sheet

    def sheet_page(self, sheet: Sheet, notice: Notice | None) -> Reply:
        """A sheet as a page."""
        return self.show("sheet.html", 200, notice, **printing.values(self.counter, sheet),
                         papers=PAPERS.values(), prints=printing.can_print(self.counter.conf))

    def sheet_file(self, form: Form) -> Reply:
        """The sheet of a batch as PDF; where none is made the page itself, which says so."""
        sheet = self.sheet_of(form)
        try:
            answer = flask.make_response(printing.pdf(self.counter, sheet))
        except printing.NoPdf as fault:
            self.note(f"no PDF was made: {fault}")
            say = self.counter.say
            lines = say("No PDF could be made."), say("Print this page.")
            return self.sheet_page(sheet, Notice(False, lines))
        answer.headers["Content-Type"] = "application/pdf"
        answer.headers["Content-Disposition"] = f'inline; filename="{readable(sheet.batch)}.pdf"'
        return answer

    def next_customer(self, form: Form) -> Reply:
        """Leads to the voucher that was scanned there. Without one, to the refund of a voucher that was
        shown, or else to the first page."""
        look = form.get("refunds", "")
        if look and not form.get("code") and REQUEST_NUMBER.fullmatch(look):
            return flask.make_response(flask.redirect(f"/refund?look={look}", 303))
        return self.leads_to(scans.code_in(form.get("code", "")))

    def scanner(self, notice: Notice | None = None) -> Reply:
        """The page that tests a scanner, with the QR code that it is tested with."""
        return self.show("scanner.html", 200, notice, picture=qr_picture(scans.TEST_TEXT).svg())

    def test_scanner(self, form: Form) -> Reply:
        """What was scanned from that page."""
        words = scans.tested(form.get("text", ""))
        return self.scanner(Notice(words == scans.GOOD, tuple(map(self.counter.say, words))))

    # The list of a sale of several

    def listed(self, form: Form) -> Reply:
        """The list of a sale of several, by the number of its look-up."""
        codes = codes_of(form.get("code", ""))
        return self.list_page(codes) if codes else self.scan_again()

    def list_page(self, codes: list[str], notice: Notice | None = None) -> Reply:
        """The list with what it comes to. The form has the codes, so that it also goes on after a restart of
        this page."""
        acts = Acts()
        lines, has_answered = self.several.lines(codes, acts)
        self.keep(acts)
        prices = [line.price for line in lines if line.price is not None]
        if not has_answered:
            notice = self.counter.refused(refusals.SILENT)
        status = 200 if notice is None else 409 if has_answered else refusals.SILENT.status
        return self.show("several.html", status, notice, lines=lines, count=len(prices), total=sum(prices),
                         has_answered=has_answered, codes=" ".join(codes), number=new_number())

    def change_list(self, form: Form) -> Reply:
        """Puts a code on the list or takes it off, and leads to the page of the list. Of a voucher that could
        be sold a list is made."""
        codes, say = codes_of(form.get("codes", "") or form.get("code", "")), self.counter.say
        if form.get("out"):
            return self.leads_to_list([code for code in codes if code != form["out"]])
        try:
            code = scans.line_of(scans.code_in(form["next"]))
        except scans.NoCode as fault:
            return self.list_page(codes, self.no_code(fault))
        if code in codes:
            return self.list_page(codes, Notice(False, (say("%(code)s is on the list already.", code=code),)))
        if len(codes) == MOST_LINES:
            line = say("No more than %(count)s codes at once: sell these first.", count=MOST_LINES)
            return self.list_page(codes, Notice(False, (line,)))
        return self.leads_to_list([*codes, code])

    def leads_to_list(self, codes: list[str]) -> Reply:
        """To the page of a list; of an empty one to the first page."""
        place = f"/several?look={self.counter.looks.keep(' '.join(codes))}" if codes else "/"
        return flask.make_response(flask.redirect(place, 303))

    def no_code(self, fault: scans.NoCode) -> Notice:
        """What was scanned in the place of a code."""
        return Notice(False, tuple(map(self.counter.say, scans.WORDS[fault.kind])))

    def shown(self, form: Form) -> Reply:
        """The page of an answer has a picture, which is none: by asking for it the browser says that it shows
        the page."""
        self.counter.answers.shown(form.word("request"))
        return flask.Response(status=204)

    def leads_to(self, code: str) -> Reply:
        """To the voucher that was typed or scanned, or what else that names, or else to the first page."""
        place = finding.place_of(self.counter, self.receipts, code)
        if not place:
            place = f"/voucher?look={self.counter.looks.keep(code)}" if code else "/"
        return flask.make_response(flask.redirect(place, 303))

    def takings(self, form: Form) -> Reply:
        """The takings of days, weeks or months."""
        if name := fields.wrong_rule("takings", form):
            return self.bad_field(name, form)
        reply = self.counter.takings(form)
        return self.show("takings.html", **reply, head=self.head(reply["by"]), spans=takings.SPANS,
                         **figures.of_days(self.counter, reply, form["from"], form["to"]),
                         first=form["from"], last=form["to"], date=datetime.date.fromisoformat)

    def head(self, span: str = "day") -> list[str]:
        """The heads of the columns of takings."""
        return [self.counter.say(takings.STEPS[span]), *payment_sums.heads(self.counter)]

    def takings_file(self, form: Form) -> Reply:
        """The takings of days, weeks or months as a CSV file."""
        if name := fields.wrong_rule("takings", form):
            return self.bad_field(name, form)
        text = takings.as_csv(self.counter.takings(form)["rows"], self.counter.language,
                              self.counter.conf.get("csv_separator", ""), payment_sums.heads(self.counter))
        return spreadsheet.answer(text, f"takings-{readable(form['from'])}-{readable(form['to'])}.csv")

    def cash_up(self, form: Form) -> Reply:
        """The takings of a day by plan and clerk, beside the server's."""
        day = form.day("day") if form.get("day") else local_time.today()
        sums, name = self.counter.cash_up(day), self.counter.plan_in_list
        sums["plans"] = [replace(row, name=name(row.name)) for row in sums["plans"]]
        return self.show("cash_up.html", **sums, **self.money_pages.of_day(day, sums["journal"]),
                         head=self.head(), day=day, details=form.get("details") == "1", now=time.time(),
                         answers=self.answered, words_of=self.made_good.words_of, plan_in_list=name)

    def cash_up_file(self, form: Form) -> Reply:
        """The cash-up of a day as a CSV file."""
        day = form.day("day") if form.get("day") else local_time.today()
        return self.money_pages.cash_up_file(day, self.counter.cash_up(day))

    def answered(self, word: str) -> str:
        """An answer of the journal, in words."""
        if word in DEEDS:
            return self.counter.say(DEEDS[word])
        return self.counter.say(refusals.of_word(word).cause, word=word)

    def confirm(self, action: str) -> Callable[[Form], Reply]:
        """What cannot be taken back is asked once more: the form with its number, and what it is about."""
        return lambda form: self.scan_again() if action == "refund" and "code" not in form else self.asks(
            action, confirmation.PAGES[action](self.counter, form))

    def asks(self, action: str, asked: confirmation.Confirmation, notice: Notice | None = None) -> Reply:
        """The page that asks once more before something is done that cannot be taken back."""
        return self.show("confirm.html", 409 if notice else 200, notice, action=action, asked=asked,
                         number=new_number())

    def replacement(self, form: Form) -> Reply:
        """Asks for the reason of a voucher that replaces that of a code, or of a session."""
        is_there = "code" in form or "session" in form
        return self.ask_reason("replace", form) if is_there else self.scan_again()

    def ask_reason(self, action: str, form: Form, notice: Notice | None = None, typed: str = "") -> Reply:
        """The page that asks for the reason of an act, with what was typed there."""
        asked = self.reasons[action](form)
        return self.show("reason.html", 400 if notice else 200, notice, action=asked.action, typed=typed,
                         asked=asked, most=reasons.MOST_SIGNS,
                         number=form.get("request") or new_number())

    # Forms that act

    def act(self, name: str) -> Reply:
        """Carries out the form of a clerk; forms with the same number wait for one another."""
        form = Form.from_body(flask.request)
        number = form.word("request")
        if not REQUEST_NUMBER.fullmatch(number):
            raise BadForm("request")
        if name in ("sell", "sell-several") and (form.get("next") or form.get("out")):
            return self.change_list(form)       # another code was scanned where this one could have been sold
        if form.get("next"):
            return self.leads_to(scans.code_in(form["next"]))
        if name in self.reasons and (lines := reasons.fault_of(self.counter, form.get("reason", ""))):
            typed = "" if reasons.has_scan(self.counter, form.get("reason", "")) else form.get("reason", "")
            return self.ask_reason(name, form, Notice(False, lines), typed)
        with self.counter.answers.turn(number):
            return self.carry_out(name, form, number)

    def carry_out(self, name: str, form: Form, number: str) -> Reply:
        """Carries out a form, unless the journal has it already, and writes it into the journal."""
        if before := self.earlier(name, form, number):
            self.note(f"{name} {logged(form, before)}: done before")
            return self.repeated(name, form, before)
        if name in payments.MONEY_ACTIONS and not payments.is_known(self.counter.conf, form):
            return self.home(409, self.money_pages.no_such_payment(form), form.get("code", ""))
        self.counter.catch_up()
        acts = Acts(self.begin, self.explain)
        try:
            confirmation.check(self.counter, name, form, number)
            notice: Notice | NoAnswer | Refused = self.actions[name](form, number, acts)
        except confirmation.HasChanged as fault:
            self.note(f"{name} {logged(form)}: not done, it has changed")
            return self.asks(name, fault.asked, fault.notice)
        except (NoAnswer, Refused) as fault:
            notice = fault
        finally:
            self.keep(acts, form)
        what = f"{name} {logged(form, acts[-1] if acts else None)}"
        if isinstance(notice, Notice):
            self.note(f"{what}: done")
            return self.done(form, notice, name in ("now", "replace"))
        self.note(f"{what}: {notice.word if isinstance(notice, Refused) else 'no answer'}")
        if isinstance(notice, NoAnswer):
            return self.again(name, form, refusals.NO_ANSWER if acts else refusals.SILENT, bool(acts))
        if notice.in_doubt or notice.word == "no_memory" and name in repetition.BY_CODE:
            return self.again(name, form, refusals.of_word(notice.word), bool(acts))
        return self.refuse(notice, form)

    def done(self, form: Form, notice: Notice, is_printed: bool) -> Reply:
        """The page that says what a form did. A browser, and no other program, is to say that it shows it."""
        notice = replace(notice, receipts=self.money_pages.receipts.receipts_of(form["request"]))
        if notice.good and flask.request.headers.get("Sec-Fetch-Mode") == "navigate":
            self.counter.answers.sent(form["request"])
            notice = replace(notice, number=form["request"])
        if is_printed:
            with contextlib.suppress(NoAnswer, Refused):
                return self.printed(form, notice)
        if notice.good or notice.rows:
            return self.show("answer.html", notice=notice)
        return self.home(notice=notice)

    def earlier(self, name: str, form: Form, number: str) -> Entry | None:
        """What this form did before, by the journal. None where no browser showed its answer, which then
        comes again. A journal that cannot be read hinders no sale."""
        if self.counter.answers.is_unseen(number):
            return None
        try:
            return repetition.earlier(self.counter, name, form, number)
        except sqlite3.Error as fault:
            self.note(f"the journal could not be read: {fault}")
            return None

    def repeated(self, name: str, form: Form, before: Entry) -> Reply:
        """Nothing is done: the page says when the form was carried out, and has a form for a new sale."""
        counter, plan = self.counter, form.get("plan", "") if name == "now" else ""
        notice = replace(repetition.notice(counter, name, before),
                         receipts=self.money_pages.receipts.receipts_of(form["request"]))
        return self.show(
            "repetition.html", 200, notice, name=counter.say(ACTIONS[name]),
            facts=repetition.facts(counter, before), money_left=repetition.money_left(counter, name, before),
            code=form.get("code", ""), look=counter.looks.keep(form.get("code", "")),
            plans=counter.offers.offered_prices, plan=plan, number=new_number(),
            one=name_of_one())

    def keep(self, acts: Acts, form: Form | None = None) -> None:
        """In the journal, with the receipt of a form that sold or refunded. What was done is done without it,
        too."""
        head = flask.request.headers
        if not acts:
            return
        try:
            self.counter.journal.add(head.get("X-User", "?"), head.get("X-Real-IP", "?"), acts,
                                     self.money_pages.till(form) if form else None)
        except sqlite3.Error as fault:
            flask.g.lost = self.counter.say("The journal could not be written: %(why)s.", why=fault)
            self.note(f"the journal could not be written: {fault}")

    def again(self, name: str, form: Form, reply: refusals.Refusal, is_in_doubt: bool) -> Reply:
        """The page that has a form once more, with its key, after no answer came: sent again it takes effect
        once. In doubt: a command of it was sent."""
        hidden = {key: value for key, value in form.items() if key not in ("request", "again")}
        return self.show("again.html", reply.status, self.counter.refused(reply), action=name,
                         is_in_doubt=is_in_doubt,
                         name=self.counter.say(ACTIONS[name]), number=form["request"], hidden=hidden)

    def refuse(self, fault: Refused, form: Form) -> Reply:
        """The first page, with the code that was typed and what is wrong with it."""
        name, path = fields.OF_ERRORS.get(fault.word, ""), flask.request.path.strip("/")
        if fault.word == "bad_request":
            name = fields.wrong_rule(path, form)
            if name:
                return self.bad_field(name, form)
        if path in SECTIONS:
            notice = self.counter.refused(refusals.of_word(fault.word))
            return self.form_page(fault.status, notice, name, form)
        code = scanned_code_beside(form.get("code", ""), form.get("kept", ""))
        return self.home(fault.status, self.counter.refused(refusals.of_word(fault.word), readable(code)),
                         code)

    def bad_field(self, name: str, form: Form) -> Reply:
        """Which field does not keep its rule, with what was typed."""
        notice = Notice(False, fields.lines(self.counter.say, name, form))
        return self.form_page(400, notice, fields.RULES[name].field or name, form)

    def begin(self, form: str, act: str, keys: Sequence[str]) -> None:
        """In the journal before they are sent: the keys of a form that acts code by code."""
        head = flask.request.headers
        try:
            self.counter.journal.begin(head.get("X-User", "?"), head.get("X-Real-IP", "?"), form, act, keys)
        except sqlite3.Error as fault:
            self.note(f"the journal could not be written: {fault}")

    def explain(self, form: str, act: str, about: str, reason: str) -> None:
        """In the journal before it is done: the reason of an act. Raises sqlite3.Error."""
        head = flask.request.headers
        self.counter.journal.explain(head.get("X-User", "?"), head.get("X-Real-IP", "?"), form, act, about,
                                     reason)

    def note(self, what: str) -> None:
        """Writes a line into systemd's journal: who, from where, what."""
        head = flask.request.headers
        who, where = head.get("X-User", "?"), head.get("X-Real-IP", "?")
        print(f"counter: {who} at {where}: {what}", file=sys.stderr, flush=True)

    def guarded(self, answer: Callable[[], Reply], form: Callable[[], Form]) -> Reply:
        """What the desk or a form does not give, in the clerk's words."""
        try:
            return answer()
        except Refused as fault:
            return self.refuse(fault, form())
        except scans.NoCode as fault:
            return self.home(400, self.no_code(fault))
        except NoAnswer:
            reply = refusals.SILENT
        except BadForm:
            with contextlib.suppress(BadForm):      # a form that cannot be read at all has no fields
                if name := fields.wrong_rule(flask.request.path.strip("/"), given := form()):
                    return self.bad_field(name, given)
            reply = refusals.of_word("bad_request")
        except sqlite3.Error as fault:
            return self.home(500, Notice(False, (self.counter.say("The journal cannot be read: %(why)s.",
                                                                  why=fault),)))
        return self.home(reply.status, self.counter.refused(reply))

    def name_of(self, action: str) -> str:
        """What an address of a form does, in words."""
        return self.counter.say(ACTIONS.get(action, clerk_words("Go on")))


def pages(counter: Counter, logins: Logins | None = None) -> flask.Flask:
    """The application of the counter's page. It lets in who is logged in; without log-ins, for tests of the
    pages alone, whatever is before it says who asks."""
    app, page = web.pages("counter", HERE), Pages(counter)
    form_token.add_to(app)
    app.jinja_env.globals["may"] = roles.may
    if logins:
        add_log_in(app, page, logins)

    @app.before_request
    def own_forms() -> Reply | None:
        if flask.request.method != "POST" or is_from_our_page():
            return None
        return page.home(403,
                         Notice(False, (counter.say("This form was not sent from the counter's own page."),)))

    @app.errorhandler(404)
    @app.errorhandler(405)
    def nothing(_: Exception) -> Reply:
        return page.home(404, Notice(False, (counter.say("There is no such page."),)))

    def asked() -> Form:
        """The fields of a query, with the code of a look-up. A code in the address itself is nowhere used."""
        form = Form.from_query(flask.request)
        code = counter.looks.code(form.get("look", ""))
        return Form({key: value for key, value in form.items() if key not in ("code", "kept")}
                    | ({"code": code} if code else {}))

    def answer(name: str) -> Reply:
        if "code" in flask.request.args:
            return flask.make_response(flask.redirect("/" if name == "next" else "/voucher", 303))
        return page.guarded(lambda: page.questions[name](asked()), asked)

    def logo() -> Reply:
        return flask.send_file(counter.logo) if counter.logo else nothing(FileNotFoundError())

    app.add_url_rule("/", "first", page.first)
    app.add_url_rule("/logo", "logo", logo)
    for name in page.questions:
        app.add_url_rule(f"/{name}", f"ask {name}", lambda name=name: answer(name))
    add_forms(app, page)
    return app


def add_log_in(app: flask.Flask, page: Pages, logins: Logins) -> None:
    """The log-in, and the pages that need it: accounts, and what a manager has written."""
    door = entrance.add(app, page, logins)
    own = own_account.add(app, page, door)
    sign_in_pages.add(app, page, door)
    clerks.add(app, page, own)
    files = SettingFiles(page, own.entrance)
    plan_pages.add(app, page, files)
    venue_pages.add(app, page, files)
    office_pages.add(app, page)


def add_forms(app: flask.Flask, page: Pages) -> None:
    """The addresses to which forms are sent: those that change nothing, and those of a clerk's actions."""
    def sent(form: Callable[[Form], Reply]) -> Callable[[], Reply]:
        return lambda: page.guarded(lambda: form(Form.from_body(flask.request)), Form)

    for name, form in page.sent.items():
        app.add_url_rule(f"/{name}", f"send {name}", view_func=sent(form), methods=["POST"])
    for name in page.actions:
        app.add_url_rule(f"/{name}", f"act {name}",
                         lambda name=name: page.guarded(lambda: page.act(name),
                                                        lambda: Form.from_body(flask.request)),
                         methods=["POST"])


def main() -> None:
    """Serves the counter's page on the socket that nginx alone may open."""
    conf = settings("/etc/portal/counter.toml")
    local_time.use_zone(conf["zone"])
    door = web.listening(conf["socket"])
    counter = Counter(Desk(conf["desk_port"], credential("desk_token")), conf)
    counter.load_plans(counter.notes.read("state").get("since"))
    threading.Thread(target=counter.follow, daemon=True).start()
    logins = Logins(STATE / "logins.db", AccountsFile(pathlib.Path(conf.get("accounts", "/etc/portal"))),
                    conf.get("lock_minutes", IDLE_MINUTES))
    web.serve(pages(counter, logins), door, threads=8)


if __name__ == "__main__":
    main()
