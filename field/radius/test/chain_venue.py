"""The day of one venue of a chain: what its guests, its clerk and its access server do, drawn from a seed, one after another; beside
it the small model of the tests, which says what each answer has to be. No answer comes only where a part was killed: then the same
is sent again until one comes, as a guest, a clerk and an access server do.
"""

from __future__ import annotations

import copy
import datetime
import email.utils
import heapq
import http.client
import itertools
import json
import queue
import random
import threading
import time
import tomllib
from collections import Counter
from collections.abc import Callable, Mapping
from dataclasses import dataclass
from typing import Any, NamedTuple

from at_entrance import Answer
from chain_lab import BYTES, PLANS, Chain
from desk_model import Model, No, Session, print_file, takings
from fast_clock import FastClock
from named_lab import Named
from scripted_nas import ACCEPT, DISCONNECT, REJECT
from scripted_nas import Reply
from steady import BUSY, Span

from portal_field.counter import takings as tables
from portal_field.lib.desk_client import Route, Routes, new_number
from portal_field.lib.refusals import BY_WORD

KINDS: dict[str, Route] = {"issue": Routes.ISSUE, "sell": Routes.SELL, "refund": Routes.REFUND, "redeem": Routes.REDEEM,
                           "close": Routes.CLOSE, "report": Routes.REPORT}
WORDS = {"not_sold": "not been sold", "used_up": "used already", "refunded": "refunded"}     # that a guest reads
PATIENCE = 120.0            # seconds in which a part that was killed is there again
TIMEOUT = 30.0              # seconds for an answer
BATCH, BURST = 20, 48       # codes of a batch; what is done at once while a part is killed
BY_PAGE = 0.4               # the part of the vouchers that a clerk sells, and no program
MINUTE, HOUR, DAY = 60, 3600, 86_400
SHIFT = 6 * HOUR            # of a clerk
Outcome = tuple[int, dict[str, Any]]


def day_of(moment: float) -> datetime.date:
    """The day of a moment."""
    return datetime.datetime.fromtimestamp(moment, datetime.UTC).date()


class ServerAnswer(NamedTuple):
    """A server's answer, and the moment that it names."""
    status: int
    at: int
    text: bytes

    @property
    def json(self) -> dict[str, Any]:
        """Its values."""
        return dict(json.loads(self.text))


class Burst(NamedTuple):
    """What is done without a pause, when it has begun, and when the part that is killed meanwhile is out."""
    what: str
    begins: threading.Event
    is_out: threading.Event


@dataclass
class Guest:
    """A device that was let in. `sent`: bytes that its access server counted."""
    device: str
    code: str
    plan: str
    number: int = 0
    klass: object = None
    sent: int = 0
    is_live: bool = False

    @property
    def accounting(self) -> str:
        """The name of its accounting session."""
        return f"a-{self.number}"


class VenueDay:
    """One venue from `begin` on, for so many seconds of the clock."""

    def __init__(self, chain: Chain, venue: Named, clock: FastClock, draw: random.Random, devices: int, begin: float,
                 seconds: float) -> None:
        self.chain, self.venue, self.time, self.draw = chain, venue, clock, draw
        self.devices, self.begin, self.end = devices, begin, begin + seconds
        self.desk, self.radius, self.agent = (f"{part}-{venue.name}" for part in ("desk", "radius", "agent"))
        self.nas = chain.nas.get(venue.name)
        settings = tomllib.loads((venue.places.settings / "portal.toml").read_text())
        self.captive = {"captive": True, "user-portal-url": settings["portal_url"],
                        **({"venue-info-url": settings["venue_url"]} if "venue_url" in settings else {})}
        self.model, self.plans = Model(), {row["id"]: row for row in tomllib.loads(PLANS)["plan"]}
        self.model.act("plans", {"plans": list(self.plans.values())}, 0)
        self.unsold: dict[str, list[str]] = {name: [] for name in self.plans}
        self.guests: dict[int, Guest] = {}
        self.happened: Counter[str] = Counter()
        self.late, self.batches, self.turn = 0.0, 0, itertools.count()
        self.todo: list[tuple[float, int, Callable[[], None]]] = []
        self.is_over = False        # something elsewhere is not as it has to be
        self.bursts: queue.Queue[Burst | None] = queue.Queue()
        self.browser, self.shift_ends = chain.browser(venue.name), 0.0

    # What is to be done, and when

    def put(self, at: float, act: Callable[[], None]) -> None:
        """Puts something into the day, at a moment of the clock; what would come after its end is left out."""
        if at < self.end:
            heapq.heappush(self.todo, (at, next(self.turn), act))

    def later(self, low: float, high: float, act: Callable[[], None]) -> None:
        """Puts something into the day, so many minutes from now."""
        self.put(self.time.now() + self.draw.uniform(low, high) * MINUTE, act)

    def run(self) -> None:
        """The whole day. AssertionError: an answer is not what it has to be."""
        self.log_in_clerk()
        for number in range(self.devices):
            self.put(self.begin + self.draw.random() * 0.9 * (self.end - self.begin), lambda number=number: self.visit(number))  # type: ignore[misc]
        for at in range(1, 12):
            self.put(self.begin + at * (self.end - self.begin) / 12, self.check_lists)
        no_more = False
        while (self.todo or not no_more) and not self.is_over:
            wait = self.time.real_seconds_to(self.todo[0][0]) if self.todo else None
            try:
                burst = self.bursts.get(timeout=None if wait is None else max(0.0, wait))
            except queue.Empty:
                self.late = max(self.late, -self.time.real_seconds_to(self.todo[0][0]))
                heapq.heappop(self.todo)[2]()
                continue
            if burst is None:
                no_more = True
            else:
                self.at_once(burst)

    def at_once(self, burst: Burst) -> None:
        """Sells, or lets in, one after another without a pause, while a part is killed. The clerk has the vouchers on the screen
        by then."""
        what = burst.what
        self.log_in_clerk()     # so that no form on the screen is of a log-in before
        codes = [self.take(self.draw.choice(("hour", "day"))) for _ in range(BURST)]
        forms = {code: self.scan(code) for code in codes[::1 if what == "page" else 2]} if what != "login" else {}
        if what == "login":
            for code in codes:
                self.sell(code)
        burst.begins.set()
        if what == "page":
            self.sell_in_a_row(forms, burst.is_out)
            return
        for code in codes:
            if what == "login":
                self.log_in(Guest(self.venue.device(), code, self.model.vouchers[code].plan.id))
            elif code in forms:
                self.sell_by_page(code, forms[code])
            else:
                self.sell(code)

    # The server's answers, and what they have to be

    def ask_once(self, route: Route, path: str, body: Any, headers: Mapping[str, str]) -> ServerAnswer:
        """An answer of the server. OSError, http.client.HTTPException: none came."""
        link = http.client.HTTPConnection("127.0.0.1", self.venue.port, timeout=TIMEOUT)
        try:
            link.request(route.method, path, None if body is None else json.dumps(body).encode(), dict(headers))
            answer = link.getresponse()
            text, date = answer.read(), email.utils.parsedate_to_datetime(str(answer.headers["Date"]))
            return ServerAnswer(answer.status, int(date.timestamp()), text)
        finally:
            link.close()

    def ask(self, route: Route, part: str = "", query: str = "", body: Any = None, device: str = "",
            number: str = "") -> tuple[ServerAnswer, bool]:
        """An answer of the server, and whether it came at the first try."""
        tokens = {"desk": self.venue.desk_token, "gateway": self.venue.gateway_token, "guest": ""}
        fields = {"Portal-Token": tokens[route.caller], "Portal-Device": device, "Portal-Request": number}
        path, span, headers = route.path.format(part) + query, Span(), {key: value for key, value in fields.items() if value}
        for tries in itertools.count(1):
            try:
                return self.ask_once(route, path, body, headers), tries == 1
            except (OSError, http.client.HTTPException) as fault:
                self.wait_for(span, f"a server that nobody killed answers: {fault!r}", self.desk)
        raise AssertionError

    def wait_for(self, span: Span, what: str, *parts: str) -> None:
        """Waits a moment for parts of which one was killed since then; else it is a fault."""
        assert self.chain.was_out(span.start, *parts) or span.held_up() >= BUSY, f"{what}  [{self.venue.name}, {span.seconds():.1f} s]"
        assert span.seconds() < PATIENCE, f"a part that was killed is there again  [{self.venue.name}: {what}]"
        self.happened["sent again"] += 1
        time.sleep(0.05)

    def expect(self, kind: str, words: dict[str, Any], found: Outcome, moments: list[int]) -> None:
        """Carries out a command in the model at the first of these moments at which it gives what was found."""
        said: Outcome = 0, {}
        for at in moments:
            trial = self.model if len(moments) == 1 else copy.deepcopy(self.model)
            try:
                said = 200, trial.act(kind, words, max(at, trial.last))
            except No as no:
                said = BY_WORD[str(no)].status, {"error": str(no)}
            if said == found:
                self.model = trial
                return
        raise AssertionError(f"the answer to a command is the model's  [{self.venue.name}: {kind} {words} at {moments}: {found}, not {said}]")

    def command(self, kind: str, words: dict[str, Any]) -> ServerAnswer:
        """Sends a command until it is answered, and compares the answer with the model's."""
        before, body = int(self.time.now()), {key: value for key, value in words.items() if key not in ("codes", "device")}
        reply, is_first = self.ask(KINDS[kind], body=body, device=words.get("device", ""), number=new_number())
        if kind == "issue":
            words = words | {"codes": self.codes_of(words["batch"])}
            del words["count"]
        moments = [reply.at] if is_first else self.moments(kind, words, before, reply)
        self.expect(kind, words, (reply.status, reply.json), moments)
        self.happened[kind if reply.status == 200 else "refused"] += 1
        return reply

    def moments(self, kind: str, words: dict[str, Any], before: int, reply: ServerAnswer) -> list[int]:
        """The moments at which a command may have been carried out that was sent more than once."""
        self.happened["in doubt"] += 1
        if kind == "sell" and reply.status == 200:
            return [int(self.ask(Routes.VOUCHER, words["code"])[0].json["sold"])]
        if kind == "issue" and reply.status == 200:
            return [int(reply.json["expires"]) - self.plans[words["plan"]]["shelf_days"] * DAY]
        if kind == "close" and reply.status == 200 or kind == "redeem" and reply.status == 200 and not reply.json["extended"]:
            details = self.ask(Routes.SESSION, str(reply.json["session"]))[0].json
            at = int(details["at" if kind == "close" else "opened"])
            assert before <= at <= reply.at, f"a command has the time at which it was carried out  [{self.venue.name}: {kind}, {before}, {details}]"
            return [at]
        if kind == "redeem" and reply.status == 200 and (ends := self.end_of(words["device"])):
            return [ends - self.model.vouchers[words["code"]].plan.seconds, before, reply.at]
        if kind == "refund" and day_of(before) != day_of(reply.at):
            text = self.ask(Routes.TAKINGS, query=f"?from={day_of(before)}&to={day_of(before)}")[0].text.decode()
            is_before = tables.days(text)[0].refunded > sum(day_of(at) == day_of(before) for at, _ in self.model.refunds)
            return [before if is_before else reply.at]
        return [before, reply.at]

    def end_of(self, device: str) -> int:
        """When the open session of a device ends, by the server's list; 0 where it has none."""
        reply = self.ask(Routes.SESSIONS)[0]
        rows = {row["device"]: row for row in reply.json["sessions"]}
        return reply.at + int(rows[device]["seconds-remaining"]) if device in rows else 0

    def codes_of(self, batch: str) -> list[str]:
        """The codes of a batch, as its print file has them."""
        return [line.partition(",")[0] for line in self.ask(Routes.PRINT, batch)[0].text.decode().splitlines()[1:]]

    def remaining(self, session: Session, at: int, found: Mapping[str, Any]) -> dict[str, Any]:
        """What is left of a session, by the model. Of bytes that an access server counts the server knows a part."""
        left = session.remaining(at)
        if self.nas and "bytes-remaining" in left:
            low = left["bytes-remaining"] - self.guests[session.number].sent
            assert low <= found.get("bytes-remaining", -1) <= left["bytes-remaining"], f"bytes that are left  [{self.venue.name}: {found}]"
            left["bytes-remaining"] = found["bytes-remaining"]
        return left

    # Questions

    def check_captive(self, device: str) -> None:
        """What the server says to a device (RFC 8908)."""
        reply, _ = self.ask(Routes.CAPTIVE, device=device)
        session, found, expected = self.model.of_device.get(device), reply.json, dict(self.captive)
        if session and session.is_open(reply.at):
            expected |= {"captive": False, "can-extend-session": session.plan.extend, **self.remaining(session, reply.at, found)}
        assert found == expected, f"a device's state is the model's  [{self.venue.name}: {found}, not {expected}]"
        self.happened["captive"] += 1

    def check_voucher(self, code: str) -> None:
        """What the server says of a voucher."""
        v, (reply, _) = self.model.voucher(code), self.ask(Routes.VOUCHER, code)
        expected = {"batch": v.batch, "code": code, "expires": v.expires, "plan": v.plan.id, "redeemed": v.redeemed,
                    "refund": v.refund, "sold": v.sold, "uses": v.plan.uses}
        assert reply.json == expected, f"a voucher is the model's  [{self.venue.name}: {reply.json}, not {expected}]"
        self.happened["voucher"] += 1

    def check_lists(self) -> None:
        """The list of open sessions, and the takings of all days so far."""
        reply, _ = self.ask(Routes.SESSIONS)
        rows = {row["session"]: row for row in reply.json["sessions"]}
        sessions = {s.number: s for s in self.model.of_device.values() if s.is_open(reply.at)}
        expected = {number: {"device": s.device, "session": number, **self.remaining(s, reply.at, rows.get(number, {}))}
                    for number, s in sessions.items()}
        assert rows == expected, f"the open sessions are the model's  [{self.venue.name}: {rows}, not {expected}]"
        self.check_details_of_open_sessions()
        first, last = day_of(self.begin), day_of(self.time.now())
        text = self.ask(Routes.TAKINGS, query=f"?from={first}&to={last}")[0].text.decode()
        expected_text = takings(self.model, first, last)
        assert text == expected_text, f"the takings are the model's  [{self.venue.name}: {text}, not {expected_text}]"
        self.happened["lists"] += 1

    def check_details_of_open_sessions(self) -> None:
        """The list of open sessions with opening and plan."""
        reply, _ = self.ask(Routes.SESSION_DETAILS)
        rows = {row["session"]: row for row in reply.json["sessions"]}
        expected = {s.number: s.entry_with_terms(reply.at) | self.remaining(s, reply.at, rows.get(s.number, {}))
                    for s in self.model.open_sessions(reply.at)}
        assert rows == expected, f"the details of the open sessions are the model's  [{self.venue.name}: {rows}, not {expected}]"

    def check_details(self, session: Session, route: Route, part: str = "", query: str = "", device: str = "") -> None:
        """The details of a session, open or ended."""
        reply, _ = self.ask(route, part, query, device=device)
        found, expected = reply.json, session.details(reply.at) | self.remaining(session, reply.at, reply.json)
        if device:
            del expected["device"]
        if self.nas:
            assert session.used <= found.get("used", -1) <= session.used + self.guests[session.number].sent, f"used bytes  [{self.venue.name}: {found}]"
            expected["used"] = found["used"]
        assert found == expected, f"the details of a session are the model's  [{self.venue.name}: {found}, not {expected}]"
        self.happened["details"] += 1

    # The counter

    def take(self, plan: str) -> str:
        """A code of this plan that nobody sold yet, of a batch that is issued where there is none."""
        if not self.unsold[plan]:
            self.batches += 1
            batch = f"b-{self.batches}"
            self.command("issue", {"batch": batch, "plan": plan, "count": BATCH})
            text = self.ask(Routes.PRINT, batch)[0].text.decode()
            assert text == print_file(self.model, batch), f"a print file is the model's  [{self.venue.name}: {text}]"
            self.unsold[plan] = list(self.model.batches[batch])
        return self.unsold[plan].pop()

    def sell(self, code: str) -> None:
        """A program sells a voucher, or the clerk at the counter's page."""
        if self.draw.random() < BY_PAGE:
            self.sell_by_page(code, self.scan(code))
        else:
            self.command("sell", {"code": code})

    def sell_by_page(self, code: str, form: Mapping[str, str]) -> None:
        """Presses the button of a voucher, and looks whether what the page says is so."""
        before = int(self.time.now())
        self.press(code, form)
        self.check_sale(code, before)

    def sell_in_a_row(self, forms: Mapping[str, Mapping[str, str]], is_out: threading.Event) -> None:
        """Presses one button after another, the last one when the part is out that is killed meanwhile, and then looks whether
        what the page said of each voucher is so."""
        begun = {}
        for number, (code, form) in enumerate(forms.items(), 1):
            assert number < len(forms) or is_out.wait(PATIENCE), "a part is killed while a clerk sells"
            begun[code] = int(self.time.now())
            self.press(code, form)
        for code, before in begun.items():
            self.check_sale(code, before)

    def check_sale(self, code: str, before: int) -> None:
        """Looks whether a voucher was sold, since that moment."""
        sold = self.ask(Routes.VOUCHER, code)[0].json["sold"]
        assert sold is not None, f"what the counter's page says is sold is sold  [{self.venue.name}: {code}]"
        assert before <= sold <= self.time.now(), f"at the moment at which it was sold  [{self.venue.name}: {code}]"
        self.model.act("sell", {"code": code}, sold)
        self.check_voucher(code)
        self.happened["sold by the page"] += 1

    def page(self, path: str, form: Mapping[str, str] | None = None) -> Answer:
        """An answer of the counter's page; nginx alone answers where the page is away."""
        span = Span()
        while True:
            why = "no answer"
            try:
                answer = self.browser.send(path, form)
                if answer.status not in (500, 502):
                    return answer
                why = f"{answer.status} {answer.text[:200]!r}"
            except (OSError, http.client.HTTPException) as fault:
                why = repr(fault)
            self.wait_for(span, f"the counter's page answers: {path} {why}", "nginx", "counters")

    def log_in_clerk(self) -> None:
        """A clerk logs in, in the morning and for each shift: no log-in is for a whole day."""
        span = Span()
        while True:
            try:
                self.browser, self.shift_ends = self.chain.clerk(self.venue.name), self.time.now() + SHIFT
                self.happened["logged in"] += 1
                return
            except (OSError, http.client.HTTPException, AssertionError, KeyError) as fault:
                self.wait_for(span, f"a clerk logs in: {fault!r}", "nginx", "counters")

    def scan(self, code: str) -> Mapping[str, str]:
        """Scans a voucher: the form that sells it."""
        if self.time.now() > self.shift_ends:
            self.log_in_clerk()
        span = Span()
        while True:
            answer = self.page("/voucher", {"token": self.browser.token, "code": code})
            answer = self.page(answer.place) if answer.status == 303 else answer
            if 'action="/sell"' in answer.text:
                return answer.form("sell")
            self.wait_for(span, f"the page has the voucher: {answer.status} {answer.told!r}", self.desk, "counters", "nginx")

    def press(self, code: str, form: Mapping[str, str]) -> None:
        """Presses the button of a sale, and goes on until a page says that it is sold."""
        span = Span()
        while True:
            answer = self.page("/sell", form)
            if "Send it again" in answer.text:
                self.wait_for(span, "the page sells", self.desk, "counters", "nginx")
                form = answer.form("sell")
            elif answer.status == 200 and ("Sold: " + code in answer.told or "class=\"repetition" in answer.text):
                return
            else:       # the server was away before the command was sent
                self.wait_for(span, f"the page sells: {answer.status} {answer.told!r}", self.desk, "counters", "nginx")

    # Guests and their access server

    def log_in(self, guest: Guest) -> None:
        """A device is let in by a code that has a use left."""
        if not self.nas:
            reply = self.command("redeem", {"device": guest.device, "code": guest.code})
            guest.number = int(reply.json["session"])
        else:
            before, answer = int(self.time.now()), self.access_server_asks(guest.code, guest.device)
            assert answer.code == ACCEPT, f"a guest with a code is let in  [{self.venue.name}: {answer}]"
            ends = self.end_of(guest.device)
            at = ends - self.plans[guest.plan]["seconds"]
            assert before <= at <= self.time.now(), f"a session begins at the login  [{self.venue.name}: {guest}, {before}, {ends}]"
            found = self.model.act("redeem", {"device": guest.device, "code": guest.code}, at)
            guest.number, guest.klass = int(found["session"]), answer.values["Class"]
            assert str(guest.klass).startswith(f"b'portal-{guest.number}-"), f"its Class names the session  [{self.venue.name}: {guest}]"
            self.happened["let in"] += 1
            self.account("Start", guest)
        self.guests[guest.number] = guest
        self.check_voucher(guest.code)

    def access_server_asks(self, code: str, device: str) -> Reply:
        """The answer of FreeRADIUS to a login; an access server sends it again, and a guest presses again."""
        span = Span()
        while True:
            answer: Reply = self.nas.login(code, device)       # type: ignore[union-attr]
            if answer.code != 0 and "got no answer" not in answer.words:
                assert answer.signed, "an answer is signed"
                return answer
            self.wait_for(span, f"FreeRADIUS answers: {answer}", self.radius, self.desk)

    def try_code(self, code: str, device: str, word: str) -> None:
        """A code that is refused with this word."""
        if not self.nas:
            reply = self.command("redeem", {"device": device, "code": code})
            assert reply.json == {"error": word}, f"a code is refused: {word}  [{self.venue.name}: {reply}]"
            return
        answer = self.access_server_asks(code, device)
        assert answer.code == REJECT and WORDS[word] in answer.words, f"a code is refused: {word}  [{self.venue.name}: {answer}]"
        self.check_voucher(code)
        self.happened["refused"] += 1

    def account(self, status: str, guest: Guest) -> None:
        """The access server's word on a session, which is sent until it is answered."""
        span = Span()
        octets = guest.sent // 3, guest.sent - guest.sent // 3
        while not self.nas.account(status, guest.accounting, guest.code, guest.device, guest.klass, octets):    # type: ignore[union-attr]
            self.wait_for(span, "accounting is answered", self.radius)
        guest.is_live = status != "Stop"
        self.happened["accounting"] += 1

    def use(self, guest: Guest) -> None:
        """Bytes of a session."""
        more = self.draw.randrange(BYTES // 8)
        if self.nas:
            if guest.is_live:
                guest.sent = min(guest.sent + more, BYTES * 3 // 4)
                self.account("Interim-Update", guest)
            return
        guest.sent += 2 * more
        self.command("report", {"session": guest.number, "bytes": guest.sent})

    def again(self, guest: Guest) -> None:
        """The device comes again with its code: no use is taken while its session is open."""
        session = self.model.sessions[guest.number - 1]
        if self.nas and session.is_open(int(self.time.now()) + 5 * MINUTE) and guest.is_live:
            answer, left = self.access_server_asks(guest.code, guest.device), session.is_open(int(self.time.now()))
            assert answer.code == ACCEPT or not left, f"a device with an open session is let in  [{self.venue.name}: {answer}]"
            self.check_voucher(guest.code)
            self.happened["let in again"] += 1
        self.check_captive(guest.device)

    def close(self, guest: Guest) -> None:
        """A clerk ends the session, at the access server too."""
        reply = self.command("close", {"session": guest.number})
        if self.nas and reply.status == 200 and guest.is_live:
            self.wait_for_end(guest)
            self.account("Stop", guest)
        self.check_captive(guest.device)

    def wait_for_end(self, guest: Guest) -> None:
        """Waits until the access server got the request to end a session."""
        span = Span()
        while not self.nas.requests_for(DISCONNECT, guest.accounting):      # type: ignore[union-attr]
            if span.over(10.0):
                self.wait_for(span, "a close ends the session at the access server", self.agent, self.radius, self.desk)
            time.sleep(0.05)
        self.happened["disconnected"] += 1

    def stop(self, guest: Guest) -> None:
        """The access server's last word on a session whose time is over."""
        if guest.is_live:
            self.account("Stop", guest)

    def stranger(self, guest: Guest) -> None:
        """Another device with the code of a guest: the next use, or none."""
        other = self.venue.device()
        if self.model.vouchers[guest.code].redeemed < self.plans[guest.plan]["uses"]:
            self.log_in(Guest(other, guest.code, guest.plan))
        else:
            self.try_code(guest.code, other, "used_up")

    def extend(self, guest: Guest) -> None:
        """The guest buys another voucher of the plan, for the device."""
        code = self.take(guest.plan)
        self.sell(code)
        if self.nas:
            return
        reply = self.command("redeem", {"device": guest.device, "code": code})
        if reply.json["session"] != guest.number:
            guest.number, guest.sent = int(reply.json["session"]), 0

    def visit(self, _: int) -> None:
        """A device of the venue, from the sale of its voucher on."""
        plan = self.draw.choices(("hour", "day", "family", "both"), (5, 2, 2, 3))[0]
        code, device = self.take(plan), self.venue.device()
        if self.draw.random() < 0.06:
            self.try_code(code, device, "not_sold")
        self.sell(code)
        if self.draw.random() < 0.08:
            self.command("refund", {"code": code})
            self.try_code(code, device, "refunded")
            return
        guest = Guest(device, code, plan)
        self.log_in(guest)
        for _ in range(self.draw.randint(1, 3)):
            act = self.draw.choice((self.use, self.use, self.again, self.stranger, self.extend))
            self.later(2, 55, lambda act=act: act(guest))        # type: ignore[misc]
        if self.draw.random() < 0.15:
            self.later(5, 50, lambda: self.close(guest))
        self.put(self.model.sessions[guest.number - 1].ends + 2 * MINUTE, lambda: self.stop(guest))

    # The end of the day

    def check_all(self) -> None:
        """All that the server has, beside the model."""
        self.check_lists()
        for code in self.model.vouchers:
            self.check_voucher(code)
        for session in self.model.sessions:
            self.check_details(session, Routes.SESSION, str(session.number))
        for device, session in self.model.of_device.items():
            self.check_details(session, Routes.LAST_SESSION, query="?device=" + device)
            self.check_details(session, Routes.OWN_SESSION, device=device)
