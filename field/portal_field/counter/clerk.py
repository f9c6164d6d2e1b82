"""What a clerk can do at the counter, over the desk."""

from __future__ import annotations

import datetime
import functools
import json
import os
import pathlib
import sqlite3
import time
from collections.abc import Callable, Sequence
from dataclasses import dataclass, field, replace
from typing import Any, NoReturn

from portal_field.counter import spreadsheet, takings, troubles
from portal_field.counter.answers import Answers
from portal_field.counter.journal import DONE, NO_ANSWER, Act, Journal, Mark, Sums
from portal_field.counter.labels import paper_of
from portal_field.counter.looks import Looks
from portal_field.counter.offers import Offers
from portal_field.counter.sheet import Sheet, rows, sheet_of, words_of
from portal_field.counter.venue_lines import VenueLines
from portal_field.guests.prices import worth
from portal_field.lib import refusals
from portal_field.lib.desk_client import Desk, NoAnswer, Refused, Route, Routes, new_number
from portal_field.lib.forms import BadForm, Form
from portal_field.lib.languages import Language
from portal_field.lib.machine_time import Notes, origin, was_set
from portal_field.lib.typed_codes import without_codes
from portal_field.settings.kinds import PICTURE_FILE

STATE = pathlib.Path(os.environ.get("STATE_DIRECTORY", "/var/lib/portal-counter"))
FOLLOWS = 1.0       # seconds between two looks at what the server does
OLD_LIST = 15       # seconds after which the gateway's list says that it is old
LONGEST_BASE = 32   # signs of an idempotency key from which others are made: -001 and so on follow
# errors of codes that a batch is sold without
PASSED_OVER = ("sold_already", "refunded", "expired", "used_up")


class Acts(list[Act]):
    """What the journal will have of a form. `begin` writes down the idempotency keys of a form that sends
    several, before it sends the first one: its number, the act, the keys. `explain` writes down the reason of
    an act: the form's number, the act, what it is about, the reason."""

    def __init__(self, begin: Callable[[str, str, Sequence[str]], None] = lambda *_: None,
                 explain: Callable[[str, str, str, str], None] = lambda *_: None) -> None:
        super().__init__()
        self.begin, self.explain = begin, explain


@dataclass(frozen=True)
class Notice:
    """What stands above a page. `good`: whether it went well. `code`: of which voucher it speaks. `rows`:
    what came of each code of several."""
    good: bool
    lines: tuple[str, ...]
    code: str = ""
    batch: str = ""         # whose sheet can be printed now
    repeats: bool = False   # nothing was done now: it is about what was done before
    number: str = ""        # of the form that it answers, where a browser is to say that it shows it
    rows: tuple[tuple[str, str], ...] = ()
    receipts: tuple[tuple[int, str], ...] = ()      # that can be printed: their numbers, and words of links


def base_of(number: str) -> str:
    """An idempotency key from which others can be made, one for each step, so that a form sent again takes
    effect once."""
    if len(number) > LONGEST_BASE:
        raise BadForm("request")
    return number


@dataclass
class Counter:
    """What the clerk can do. An action answers what stands above the next page, and adds to `acts` what it
    did."""
    desk: Desk
    conf: dict[str, Any]
    journal: Journal = field(default_factory=lambda: Journal(STATE / "journal.db"))
    plans_notice: Notice | None = None
    since: Any = None           # the start of the server, by its note, for which the plans were loaded
    answers: Answers = field(default_factory=Answers)
    looks: Looks = field(default_factory=Looks)

    def __post_init__(self) -> None:
        self.language = Language(self.conf.get("language", "en"), "counter")
        self.say = self.language.say
        self.venue_lines = VenueLines(self.conf, self.settings_folder)
        self.venue_lines.refresh()

    @property
    def settings_folder(self) -> pathlib.Path:
        """Where the files are that a manager has written."""
        return pathlib.Path(self.conf.get("plans", "/etc/portal/plans.toml")).parent

    @property
    def logo(self) -> pathlib.Path | None:
        """The venue's picture, where it has one that is there: the one that a manager chose on this page, or
        else that of field.toml."""
        paths = self.settings_folder / PICTURE_FILE, pathlib.Path(self.conf.get("logo") or "/nowhere")
        return next((path for path in paths if path.is_file()), None)

    def money(self, hundredths: int) -> str:
        """An amount in the venue's currency and the counter's language."""
        return self.language.money(hundredths, self.conf.get("currency", ""))

    def typed_money(self, hundredths: int) -> str:
        """An amount as a clerk types it in the counter's language."""
        return spreadsheet.written(spreadsheet.amount(hundredths), spreadsheet.separator_of(self.language))

    def plan_name(self, plan: str) -> str:
        """A plan as a clerk reads it: its name, or its id where the venue names none."""
        return self.offers.name_of(plan, self.language.tag)

    def plan_in_list(self, plan: str) -> str:
        """A plan where several are listed: its name, and its id too where another plan has the name, as the
        one of the price before."""
        name, plans = self.plan_name(plan), self.offers.accepted_plans
        is_shared = any(self.plan_name(other) == name for other in plans if other != plan)
        return f"{name} ({plan})" if is_shared else name

    def plan_words(self, plan: str) -> str:
        """The name of a plan, and what it gives."""
        terms, name = self.offers.accepted_plans.get(plan, {}), self.plan_name(plan)
        gives = worth(terms, self.language) if {"seconds", "bytes", "uses"} <= terms.keys() else ""
        return f"{name}: {gives}" if gives and gives != name else name

    def refused(self, refusal: refusals.Refusal, code: str = "") -> Notice:
        """A refusal as a clerk reads it, with the code that it is about."""
        words = tuple(self.say(text, word=repr(refusal.word)) for text in (refusal.cause, refusal.advice))
        words += tuple(self.whom_to_call()) if refusal.word == NO_ANSWER else ()
        return Notice(False, (code + ":", *words) if code else words, code)

    @functools.cached_property
    def offers(self) -> Offers:
        """The plans that are offered; made at the first use."""
        return Offers(self.desk, self.conf, self.journal)

    def load_plans(self, since: Any = None) -> None:
        """At each start of this page and of the server: a database that took the plans file before does
        nothing with it, and one that did not, as after a restore, takes it."""
        self.offers.load(since)
        lines = self.offers.notice(self.say)
        self.since = self.offers.since
        self.plans_notice = Notice(False, lines) if lines else None

    def catch_up(self) -> None:
        """A server that was started since may have another database."""
        since = self.notes.read("state").get("since")
        if since != self.since:
            self.load_plans(since)

    def follow(self) -> NoReturn:
        """Loads the plans once the server serves, and for each start of it, without anybody who asks for a
        page."""
        while True:
            time.sleep(FOLLOWS)
            self.look()

    def look(self) -> None:
        """Takes what a manager has written since, and loads the plans where the server was started since."""
        self.venue_lines.refresh()
        reply = self.notes.read("state")
        if reply.get("is") == "serves" and reply.get("since") != self.since:
            self.load_plans(reply["since"])

    # Forms that act

    def command(self, acts: Acts, act: str, route: Route, body: dict[str, Any], number: str,
                about: dict[str, Any] | None = None) -> dict[str, Any]:
        """Sends a command to the desk, and puts it with its answer into `acts`. `about`: batch, plan and
        codes, which are asked for where a code alone is given."""
        reply, answer = {}, NO_ANSWER
        try:
            reply = self.desk.request_json(route, body=body, number=number)
            answer = DONE
            return reply
        except Refused as fault:
            answer = fault.word
            raise
        finally:
            known = self.about(body.get("code"), answer) if about is None else about
            if answer != DONE:      # a code may have been scanned where a name was asked for
                known = {key: without_codes(value) if isinstance(value, str) else value
                         for key, value in known.items()}
            acts.append(Act(act, number, answer, price=reply.get("price", reply.get("amount", 0)), **known))

    def about(self, code: str | None, answer: str) -> dict[str, Any]:
        """Asks of which batch and plan a code is; nothing where the desk does not say so."""
        if code is None or answer == NO_ANSWER:
            return {}
        try:
            reply = self.desk.request_json(Routes.VOUCHER, code)
        except (Refused, NoAnswer):
            return {}
        return {"batch": reply["batch"], "plan": reply["plan"], "codes": 1}

    def sell(self, form: Form, number: str, acts: Acts) -> Notice:
        """Sells the voucher of a code."""
        reply = self.command(acts, "sell", Routes.SELL, {"code": form.word("code")}, number)
        return self.notice_of_sale(reply)

    def notice_of_sale(self, reply: dict[str, Any], batch: str = "") -> Notice:
        """What the clerk reads after a sale."""
        return Notice(True, (self.say("Sold: %(code)s.", code=reply["code"]),
                             self.say("Take %(sum)s.", sum=self.money(reply["price"]))), batch=batch)

    def refund(self, form: Form, number: str, acts: Acts) -> Notice:
        """Refunds the voucher of a code."""
        reply = self.command(acts, "refund", Routes.REFUND, {"code": form.word("code")}, number)
        return Notice(True, (self.say("Refunded: %(code)s.", code=reply["code"]),
                             self.say("Give back %(sum)s.", sum=self.money(reply["amount"]))))

    def close(self, form: Form, number: str, acts: Acts) -> Notice:
        """Closes a session by its number."""
        reply = self.command(acts, "close", Routes.CLOSE, {"session": form.whole("session")}, number)
        return Notice(True, (self.say("Session %(number)s is closed.", number=reply["session"]),
                             self.say("Its device is offline in a moment.")))

    def issue(self, form: Form, number: str, acts: Acts) -> Notice:
        """Issues a batch of vouchers of one plan."""
        reply = self.issued(form, form.whole("count"), number, acts)
        line = self.language.say_plural("Batch %(batch)s: %(num)s code, good until %(until)s.",
                                        "Batch %(batch)s: %(num)s codes, good until %(until)s.",
                                        reply["count"], batch=reply["batch"],
                                        until=self.language.moment(reply["expires"]))
        return Notice(True, (line,), batch=reply["batch"])

    def issued(self, form: Form, count: int, number: str, acts: Acts, act: str = "issue") -> dict[str, Any]:
        """The server's answer to an issue of so many codes; it is a line of the journal, as `act`."""
        batch, plan = form.word("batch"), form.word("plan")
        if act != "replace" and plan == self.offers.goodwill:
            raise BadForm("plan")       # no menu has it
        return self.command(acts, act, Routes.ISSUE, {"batch": batch, "plan": plan, "count": count}, number,
                            {"batch": batch, "plan": plan, "codes": count})

    def sell_one_now(self, form: Form, number: str, acts: Acts) -> Notice:
        """A batch of one code, issued and sold; its steps have numbers made from the form's, so it takes
        effect once."""
        base, batch = base_of(number), form.word("batch")
        self.issued(form, 1, base + "-001", acts, "one")
        row, = rows(self.desk.request(Routes.PRINT, batch).decode())
        return self.notice_of_sale(self.sell_row(row, batch, base + "-002", acts), batch)

    def sell_row(self, row: dict[str, str], batch: str, number: str, acts: Acts) -> dict[str, Any]:
        """Sells a code of a print file."""
        return self.command(acts, "sell", Routes.SELL, {"code": row["code"]}, number,
                            {"batch": batch, "plan": row["plan"], "codes": 1})

    # Questions

    def look_up(self, form: Form, acts: Acts) -> dict[str, Any]:
        """A voucher, for the journal too. A server that says nothing showed nothing."""
        try:
            found = self.voucher(form)
        except Refused as fault:
            acts.append(Act("look", "", fault.word))
            raise
        acts.append(Act("look", "", DONE, found["voucher"]["batch"], found["voucher"]["plan"], 1))
        return found

    def voucher(self, form: Form) -> dict[str, Any]:
        """What the desk says of a voucher, and what can be done with it."""
        reply = self.voucher_of(form.word("code"))
        open_, left = reply["refund"] is None, reply["uses"] - reply["redeemed"]
        late = self.is_late(reply)
        return {"voucher": reply, "price": self.price(reply["batch"]),
                "sells": reply["sold"] is None and not late,
                "refunds": reply["sold"] is not None and open_ and left > 0,
                "replaces": reply["sold"] is not None and open_, "left": left, "late": late}

    def voucher_of(self, code: str) -> dict[str, Any]:
        """What the desk says of a voucher."""
        return self.desk.request_json(Routes.VOUCHER, code.replace(" ", ""))

    def is_late(self, voucher: dict[str, Any]) -> bool:
        """Whether a voucher is past its date."""
        return bool(voucher["expires"] <= time.time())

    def price(self, batch: str) -> int:
        """Of a voucher of this batch, in hundredths, by the server: the plans file may have changed since."""
        return takings.hundredths(rows(self.desk.request(Routes.PRINT, batch).decode())[0]["price"])

    def marks(self) -> dict[str, Mark]:
        """The batches that are marked as lost; none where the journal cannot be read, which hinders no
        sale."""
        try:
            return self.journal.marks()
        except sqlite3.Error:
            return {}

    def words_of_mark(self, mark: Mark) -> str:
        """Who marked a batch as lost, when and why."""
        return f"{mark.clerk}, {self.language.moment(mark.moment)}: {mark.reason}"

    def facts(self, reply: dict[str, Any]) -> list[tuple[str, str]]:
        """What the page shows of a voucher, line by line."""
        say, language = self.say, self.language
        mark = self.marks().get(reply["batch"])
        return [*([(say("Marked as lost"), self.words_of_mark(mark))] if mark else []),
                (say("Plan"), self.plan_words(reply["plan"])), (say("Batch"), reply["batch"]),
                (say("Good until"), language.moment(reply["expires"])),
                (say("Sold"), say("no") if reply["sold"] is None else language.moment(reply["sold"])),
                (say("Used"), say("%(part)s of %(all)s", part=reply["redeemed"], all=reply["uses"])),
                (say("Refunded"), say("no") if reply["refund"] is None else self.money(reply["refund"]))]

    def batch(self, form: Form) -> list[dict[str, str]]:
        """The rows of a batch's print file."""
        return rows(self.desk.request(Routes.PRINT, form.word("batch")).decode())

    def sheet(self, form: Form, acts: Acts) -> Sheet:
        """The vouchers of a batch on the paper that the form names, which the journal counts as printed."""
        listed, paper = self.batch(form), paper_of(form.get("size", ""), self.conf)
        plan = listed[0]["plan"] if listed else ""
        acts.append(Act("print", "", DONE, form.word("batch"), plan, len(listed)))
        uses = self.desk.request_json(Routes.VOUCHER, listed[0]["code"])["uses"] if listed else 1
        languages = [Language(tag) for tag in self.conf.get("voucher_languages", ["en"])]
        words = words_of(listed[0], uses, self.conf, languages, paper) if listed else ()
        return sheet_of(form.word("batch"), listed, words, self.conf, paper)

    # Takings, and the journal beside them

    def days(self, first: str, last: str) -> list[Sums]:
        """The server's sums of each day, which are asked for in parts where they are many."""
        return [row for part in takings.parts(first, last)
                for row in takings.days(self.desk.request(Routes.TAKINGS, query=part).decode())]

    def takings(self, form: Form) -> dict[str, Any]:
        """The server's sums by days, weeks or months, and all together."""
        span = form.get("by", "day")
        span = span if span in takings.SPANS else "day"
        listed = takings.grouped(self.days(form.word("from"), form.word("to")), span)
        return {"rows": listed, "total": takings.added("", listed), "by": span}

    def cash_up(self, day: datetime.date) -> dict[str, Any]:
        """What the server took on a day, the journal's sums beside it, and what each clerk did."""
        server, = self.days(str(day), str(day))
        free = takings.free_vouchers(self.conf.get("free_days", ""), day)   # which no clerk sold
        plans, clerks = self.journal.by("plan", day), self.journal.by("clerk", day)
        doubt = self.journal.in_doubt(day)
        journal = takings.added("", clerks)
        reply = self.language.say_plural("%(num)s form got no answer: look up what it was about.",
                                         "%(num)s forms got no answer: look up what they were about.", doubt)
        return {"server": server, "journal": journal, "plans": plans, "clerks": clerks,
                "doubt": reply if doubt else "",
                "made_good": self.journal.made_good(day),
                "free": free,
                "difference": takings.difference(replace(server, sold=server.sold - free), journal,
                                                 self.language, self.money),
                "acts": self.journal.day(day)}

    # The server and its clock

    @property
    def notes(self) -> Notes:
        """The notes about the clock that the page and the server's parent share."""
        return Notes(self.conf.get("notes", "/run/portal-clock"))     # the file may be of before

    def time_is_right(self, form: Form, number: str, acts: Acts) -> Notice:
        """A clerk's word for the server that waits. It is for the clock that the page showed, and is taken
        once."""
        if self.notes.read("state").get("is") != "waits":
            return Notice(True, (self.say("The server does not wait for the time any more."),))
        if was_set(form.whole("booted"), origin()):
            return Notice(False, (self.say("The machine's clock was set since this page was shown."),
                                  self.say("Look at its time again.")))
        try:
            self.notes.write("word", origin=form.whole("booted"), who="a clerk")
        except OSError as fault:
            return Notice(False, (self.say("Your word does not reach the server."), str(fault)))
        acts.append(Act("time", number, DONE))
        return Notice(True, (self.say("The server starts now."),))

    def server_waits(self, reply: dict[str, Any]) -> dict[str, Any] | None:
        """What the page asks a clerk where the server waits for the right time."""
        if reply.get("is") != "waits":
            return None
        last = reply.get("last")
        shown = self.language.clock(time.time(), "EEEE, y-MM-dd HH:mm:ss")
        return {"facts": [(self.say("Time of this machine"), shown), (
            self.say("Last entry of the database"), self.say("none") if last is None
            else self.language.moment(last))],
            "shown": shown, "booted": str(max(0, round(origin()))), "number": new_number()}

    def server_notice(self, reply: dict[str, Any]) -> Notice | None:
        """What keeps the server from serving, by its own note."""
        if reply.get("is") == "failed":
            return Notice(False, (self.say("The server does not start."), str(reply.get("why"))))
        if reply.get("is") == "waits":
            return Notice(False,
                          (self.say("The server waits, as the time of this machine may be wrong. Until then "
                                    "nothing is sold and nobody passes."),
                           self.say("Why: %(reason)s.", reason=reply.get("why"))))
        return None

    def first_notice(self) -> Notice | None:
        """What stands above the first page; the plans are loaded again where the server was started since."""
        reply = self.notes.read("state")
        notice = self.server_notice(reply)
        if not notice and (self.plans_notice or reply.get("since") != self.since):
            self.load_plans(reply.get("since"))
        if notice:
            lines = list(notice.lines)
        else:
            lines = troubles.of_server(self.desk, self.say)
            lines += self.plans_notice.lines if self.plans_notice else ()
        lines += troubles.of_disk(pathlib.Path(self.journal.path).parent, self.say)
        lines += troubles.of_copies(self.conf.get("copied", ""), self.say)
        return Notice(False, (*lines, *self.whom_to_call())) if lines else None

    def whom_to_call(self) -> list[str]:
        """The line that says whom to call, where the venue names somebody."""
        contact = self.conf.get("owner_contact", "")
        return [self.say("Whom to call: %(who)s.", who=contact)] if contact else []

    def state_of_venue(self) -> list[tuple[str, str]]:
        """How the server and the machine are, line by line."""
        say, copied = self.say, troubles.copied_at(self.conf.get("copied", ""))
        return [(say("Server"), say("answers") if troubles.answers(self.desk) else say("does not answer")),
                (say("Time of this machine"), self.language.moment(time.time())),
                (say("Last copy of the database"), self.language.moment(copied) if copied else "–"),
                (say("Whom to call"), self.conf.get("owner_contact", "") or "–")]

    def held(self, session: dict[str, Any]) -> str:
        """The bytes that the desk holds of a session, and how old that count is, as far as the gateway
        knows."""
        if "reported-at" not in session:
            return self.say("not since the gateway started")
        age = max(0, int(time.time()) - session["reported-at"])
        return self.say("%(count)s, %(span)s ago", count=self.language.volume(session["reported"]),
                        span=self.language.span(age))

    @property
    def is_starting(self) -> bool:
        """Whether the server waits, does not start, or started just now: the gateway has no list then, or an
        old one."""
        reply = self.notes.read("state")
        since = reply.get("since")
        is_new = isinstance(since, int) and time.time_ns() - since < OLD_LIST * 10**9
        return is_new or reply.get("is") in ("waits", "failed")

    def sessions(self) -> dict[str, Any]:
        """The gateway agent's list, with its age where it is old; neither list nor fault while the server
        starts, and of a venue without a gateway of its own."""
        if not self.conf["snapshot"]:
            return {"rows": None, "fault": ""}
        try:
            reply = json.loads(pathlib.Path(self.conf["snapshot"]).read_text())
        except (OSError, ValueError):
            fault = self.say("There is no list from the gateway. Is portal-gateway.service running?")
            return {"rows": None, "fault": "" if self.is_starting else fault}
        age = int(time.time()) - reply["at"]
        if age > OLD_LIST and self.is_starting:
            return {"rows": None, "fault": ""}
        old = self.say("This list is %(span)s old: the gateway gets no answer, and nobody passes.",
                       span=self.language.span(age))
        amounts = (("seconds-remaining", self.language.span), ("bytes-remaining", self.language.volume))
        listed = [{"number": s["session"], "device": s["device"], "used": self.language.volume(s["used"]),
                   "left": [say(s[key]) if key in s else "–" for key, say in amounts], "held": self.held(s)}
                  for s in reply["sessions"]]
        return {"fault": old if age > OLD_LIST else "", "rows": listed,
                "counted": self.language.clock(reply["at"])}
